'use strict';
// What is typed, as the fragment of a link: `#KIND=`, `z` or `p`, and a JSON text in base64url, packed where it begins
// with z. A fragment is not sent over a network.
const links = (() => {
    const PIECE = 8192;

    // Bytes as base64url.
    function toText(bytes) {
        let signs = '';
        for (let at = 0; at < bytes.length; at += PIECE) signs += String.fromCharCode(...bytes.slice(at, at + PIECE));
        return btoa(signs).replaceAll('+', '-').replaceAll('/', '_').replaceAll('=', '');
    }

    function toBytes(text) {
        const signs = atob(text.replaceAll('-', '+').replaceAll('_', '/'));
        const bytes = new Uint8Array(signs.length);
        for (let at = 0; at < signs.length; at++) bytes[at] = signs.charCodeAt(at);
        return bytes;
    }

    // Bytes through a stream that packs or unpacks them.
    async function through(stream, bytes) {
        const out = new Blob([bytes]).stream().pipeThrough(stream);
        return new Uint8Array(await new Response(out).arrayBuffer());
    }

    async function fragmentOf({ kind, ...rest }) {
        const plain = new TextEncoder().encode(JSON.stringify(rest));
        if (typeof CompressionStream !== 'function') return `#${kind}=p${toText(plain)}`;
        return `#${kind}=z${toText(await through(new CompressionStream('deflate-raw'), plain))}`;
    }

    // What a fragment has: its kind, and what was typed, if it carries that. Throws where it is no fragment of a link.
    async function read(fragment) {
        const [kind, packed] = fragment.slice(1).split('=');
        if (!packed) return { kind };
        const bytes = toBytes(packed.slice(1));
        const plain = packed[0] === 'z' ? await through(new DecompressionStream('deflate-raw'), bytes) : bytes;
        const { device, lines, binding, isByName } = JSON.parse(new TextDecoder().decode(plain));
        return { kind, device: String(device), lines: String(lines), binding: String(binding), isByName: !!isByName };
    }

    return { fragmentOf, read, toBytes };
})();
