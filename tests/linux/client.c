/*
 * The whole user land of the guest: a client of Linux's own MCTP stack (AF_MCTP sockets) that does what the host says.
 * It puts the line discipline N_MCTP on the serial line that leads to the device, or on as many as `lines=N` on the
 * kernel's command line says. With `binding=i2c` there it loads the module i2c_adapter.ko instead, attaches mctp-i2c to
 * its bus, and passes the bus's transfers over the serial line, each as a line of hex. Then it reads commands from a
 * serial line of its own, one a line, and writes one line for each. Numbers are decimal, bytes are in hex.
 *
 *   line N                         the line, 0 at first, that addresses, neighbours, routes, `physical` and
 *                                  `statistics` after it are of                  ok
 *   address EID                    our endpoint ID                               ok
 *   neighbour EID ADDRESS          the address on I2C of an endpoint             ok
 *   unneighbour EID                                                              ok
 *   route EID MTU                  a way to an endpoint; MTU 0 is the line's     ok
 *   unroute EID                                                                  ok
 *   tag EID                        a tag that is kept for this endpoint          tag N
 *   untag EID TAG                                                                ok
 *   send EID TYPE TAG BYTES        a message; TAG 8 is one that the kernel picks ok
 *   physical EID TYPE ADDRESS BYTES
 *                                  the same without a route, by the line alone, to an address on I2C; 0 for none
 *                                                                                ok
 *   receive MS                     the next message                              message EID TYPE TAG BYTES, or nothing
 *   ask EID TYPE TAG MS BYTES      send, then receive
 *   statistics                     the counters of the line                      NAME N ..
 *   end                            the guest powers off
 *
 * What the kernel refuses is shown as `error NAME`, with the name of the error. BYTES are those after the message type,
 * which the kernel writes and reads itself.
 */
#define _GNU_SOURCE
#include <errno.h>
#include <fcntl.h>
#include <net/if.h> /* before linux/mctp.h, which has the same names where they are not there yet */
#include <poll.h>
#include <stdarg.h>
#include <stdbool.h>
#include <stdint.h>
#include <stdio.h>
#include <stdlib.h>
#include <string.h>
#include <sys/ioctl.h>
#include <sys/mount.h>
#include <sys/reboot.h>
#include <sys/socket.h>
#include <sys/stat.h>
#include <sys/syscall.h>
#include <termios.h>
#include <unistd.h>
#include <linux/if_addr.h>
#include <linux/mctp.h>
#include <linux/neighbour.h>
#include <linux/netlink.h>
#include <linux/rtnetlink.h>

#ifndef N_MCTP
#define N_MCTP 28
#endif

#define DEVICE_LINE "/dev/ttyS0"
#define COMMAND_LINE "/dev/ttyS1"

/* The lines to devices, in the order of the interfaces that the kernel makes of them. */
static const char *const device_lines[] = {DEVICE_LINE, "/dev/ttyS2", "/dev/ttyS3"};
static const char *const serial_interfaces[] = {"mctpserial0", "mctpserial1", "mctpserial2"};

/* The adapter is the first of the guest; 0x1000 says that the address is the guest's own, as a slave. */
#define I2C_MODULE "/i2c_adapter.ko"
#define I2C_BUS "/dev/i2c_bus"
#define I2C_ADAPTER "/sys/bus/i2c/devices/i2c-0/new_device"
#define I2C_CLIENT "mctp-i2c-interface 0x1008"
#define I2C_INTERFACE "mctpi2c0"

enum { MAX_BYTES = 70000, MAX_WORDS = 8, TRANSFER_BYTES = 512, MAX_LINES = 3 };

static FILE *answers;
static const char *interface;
static int interface_index, message_socket, physical_socket;
static char *words[MAX_WORDS];
static uint8_t bytes[MAX_BYTES];

/* Nothing can be reported without the command line, so a fault before it shows only on the guest's console. */
static void fail(const char *what)
{
	fprintf(answers ? answers : stderr, "fatal %s: %s\n", what, strerror(errno));
	fflush(answers ? answers : stderr);
	reboot(RB_POWER_OFF);
	_exit(1);
}

static void answer(const char *format, ...)
{
	va_list values;

	va_start(values, format);
	vfprintf(answers, format, values);
	va_end(values);
	fputc('\n', answers);
	fflush(answers);
}

static void answer_status(int status)
{
	if (status < 0)
		answer("error %s", strerrorname_np(errno));
	else
		answer("ok");
}

/* ---- The serial lines ---- */

static void set_raw(int terminal)
{
	struct termios settings;

	if (tcgetattr(terminal, &settings))
		fail("tcgetattr");
	cfmakeraw(&settings);
	settings.c_cflag |= CLOCAL | CREAD;
	settings.c_cflag &= ~CRTSCTS;
	cfsetspeed(&settings, B115200);
	if (tcsetattr(terminal, TCSANOW, &settings))
		fail("tcsetattr");
}

static int open_raw(const char *name)
{
	int terminal = open(name, O_RDWR | O_NOCTTY);

	if (terminal < 0)
		fail(name);
	set_raw(terminal);
	return terminal;
}

/* Passes bytes between two terminals for ever. It looks at none of them. */
static void pass_bytes(int one, int other)
{
	static uint8_t piece[65536];
	struct pollfd ends[2] = {{.fd = one, .events = POLLIN}, {.fd = other, .events = POLLIN}};

	while (poll(ends, 2, -1) >= 0) {
		for (int i = 0; i < 2; i++) {
			if (!ends[i].revents)
				continue;
			ssize_t count = read(ends[i].fd, piece, sizeof piece);
			if (count <= 0)
				_exit(0);
			for (ssize_t written = 0; written < count;) {
				ssize_t more = write(ends[1 - i].fd, piece + written, count - written);
				if (more < 0)
					_exit(1);
				written += more;
			}
		}
	}
	_exit(1);
}

/*
 * The terminal that gets the line discipline. The serial driver of a kernel in user mode (arch/um/drivers/line.c) does
 * not wake a line discipline after a write, so that mctp-serial would stop in its first frame. So the discipline stands
 * on a pseudoterminal of the guest, and a process of the guest passes its bytes to the serial line.
 */
static int open_device_line(const char *device_line)
{
	char name[40];
	int unlock = 0, number, terminal, line = open_raw(device_line);
	int master = open("/dev/ptmx", O_RDWR | O_NOCTTY);

	if (master < 0 || ioctl(master, TIOCSPTLCK, &unlock) || ioctl(master, TIOCGPTN, &number))
		fail("ptmx");
	snprintf(name, sizeof name, "/dev/pts/%d", number);
	terminal = open_raw(name);
	switch (fork()) {
	case -1:
		fail("fork");
		break;
	case 0:
		close(terminal);
		pass_bytes(master, line);
	}
	return terminal;
}

static void attach_serial(int place)
{
	int discipline = N_MCTP;

	if (ioctl(open_device_line(device_lines[place]), TIOCSETD, &discipline))
		fail("N_MCTP");
	interface = serial_interfaces[place];
}

/* ---- The I2C bus ---- */

/* Writes a transfer to the line, as a line of hex. */
static void tell_transfer(FILE *line, const uint8_t *transfer, size_t count)
{
	for (size_t i = 0; i < count; i++)
		fprintf(line, "%02x", transfer[i]);
	fputc('\n', line);
	fflush(line);
}

/* The bytes of a line of hex, up to its end, and how many they are. */
static size_t read_transfer(const char *text, uint8_t transfer[TRANSFER_BYTES])
{
	size_t count = 0;

	while (count < TRANSFER_BYTES && sscanf(text + 2 * count, "%2hhx", &transfer[count]) == 1)
		count++;
	return count;
}

/* Makes transfers of the lines of a process of its own, for ever. One that nobody acknowledges is lost. */
static void make_transfers(int bus, FILE *line)
{
	static char text[4 * TRANSFER_BYTES];
	uint8_t transfer[TRANSFER_BYTES];

	while (fgets(text, sizeof text, line))
		if (write(bus, transfer, read_transfer(text, transfer)) < 0 && errno != ENXIO)
			_exit(1);
	_exit(0);
}

/* Reports the transfers of this machine, for ever. */
static void tell_transfers(int bus, FILE *line)
{
	uint8_t transfer[TRANSFER_BYTES];
	ssize_t count;

	while ((count = read(bus, transfer, sizeof transfer)) > 0)
		tell_transfer(line, transfer, count);
	_exit(1);
}

/* Passes transfers between the bus and the serial line, by a process for each way. */
static void pass_transfers(void)
{
	int line = open_raw(DEVICE_LINE), bus = open(I2C_BUS, O_RDWR);

	if (bus < 0)
		fail(I2C_BUS);
	for (int way = 0; way < 2; way++) {
		switch (fork()) {
		case -1:
			fail("fork");
			break;
		case 0:
			if (way)
				make_transfers(bus, fdopen(line, "r"));
			else
				tell_transfers(bus, fdopen(line, "w"));
		}
	}
}

static void attach_i2c(void)
{
	int module = open(I2C_MODULE, O_RDONLY), adapter;

	if (module < 0 || syscall(SYS_finit_module, module, "", 0))
		fail(I2C_MODULE);
	pass_transfers();
	adapter = open(I2C_ADAPTER, O_WRONLY);
	if (adapter < 0 || write(adapter, I2C_CLIENT, strlen(I2C_CLIENT)) < 0)
		fail(I2C_ADAPTER);
	interface = I2C_INTERFACE;
}

/* ---- The interface ---- */

static void start_interface(void)
{
	struct ifreq request = {0};
	int any = socket(AF_UNIX, SOCK_DGRAM, 0);

	strcpy(request.ifr_name, interface);
	if (any < 0 || ioctl(any, SIOCGIFFLAGS, &request))
		fail("SIOCGIFFLAGS");
	request.ifr_flags |= IFF_UP;
	if (ioctl(any, SIOCSIFFLAGS, &request))
		fail("SIOCSIFFLAGS");
	close(any);
	interface_index = if_nametoindex(interface);
}

static void use_line(int place)
{
	interface = serial_interfaces[place];
	interface_index = if_nametoindex(interface);
}

static void open_sockets(void)
{
	int on = 1;

	message_socket = socket(AF_MCTP, SOCK_DGRAM, 0);
	physical_socket = socket(AF_MCTP, SOCK_DGRAM, 0);
	if (message_socket < 0 || physical_socket < 0)
		fail("AF_MCTP");
	if (setsockopt(physical_socket, SOL_MCTP, MCTP_OPT_ADDR_EXT, &on, sizeof on))
		fail("MCTP_OPT_ADDR_EXT");
}

/* ---- Addresses and routes, by netlink ---- */

struct netlink_request {
	struct nlmsghdr header;
	union {
		struct ifaddrmsg address;
		struct ndmsg neighbour;
		struct rtmsg route;
	};
	char attributes[64];
};

static void add_attribute(struct netlink_request *request, int type, const void *value, size_t size)
{
	struct rtattr *attribute = (void *)((char *)request + NLMSG_ALIGN(request->header.nlmsg_len));

	attribute->rta_type = type;
	attribute->rta_len = RTA_LENGTH(size);
	memcpy(RTA_DATA(attribute), value, size);
	request->header.nlmsg_len = NLMSG_ALIGN(request->header.nlmsg_len) + RTA_ALIGN(attribute->rta_len);
}

/* Returns 0, or -1 with errno set. */
static int exchange(struct netlink_request *request)
{
	static int netlink = -1;
	char reply[4096];
	struct nlmsghdr *header = (void *)reply;

	if (netlink < 0)
		netlink = socket(AF_NETLINK, SOCK_RAW, NETLINK_ROUTE);
	request->header.nlmsg_flags |= NLM_F_REQUEST | NLM_F_ACK;
	if (send(netlink, request, request->header.nlmsg_len, 0) < 0)
		return -1;
	do {
		if (recv(netlink, reply, sizeof reply, 0) < 0)
			return -1;
	} while (header->nlmsg_type != NLMSG_ERROR);
	errno = -((struct nlmsgerr *)NLMSG_DATA(header))->error;
	return errno ? -1 : 0;
}

static int add_address(uint8_t eid)
{
	struct netlink_request request = {
		.header = {.nlmsg_len = NLMSG_LENGTH(sizeof request.address), .nlmsg_type = RTM_NEWADDR},
		.address = {.ifa_family = AF_MCTP, .ifa_index = interface_index},
	};

	add_attribute(&request, IFA_LOCAL, &eid, sizeof eid);
	return exchange(&request);
}

static int change_neighbour(int type, uint8_t eid, uint8_t address)
{
	struct netlink_request request = {
		.header = {.nlmsg_len = NLMSG_LENGTH(sizeof request.neighbour), .nlmsg_type = type},
		.neighbour = {.ndm_family = AF_MCTP, .ndm_ifindex = interface_index},
	};

	add_attribute(&request, NDA_DST, &eid, sizeof eid);
	if (type == RTM_NEWNEIGH)
		add_attribute(&request, NDA_LLADDR, &address, sizeof address);
	return exchange(&request);
}

static int change_route(int type, uint8_t eid, uint32_t unit)
{
	struct netlink_request request = {
		.header = {.nlmsg_len = NLMSG_LENGTH(sizeof request.route), .nlmsg_type = type},
		.route = {.rtm_family = AF_MCTP, .rtm_type = RTN_UNICAST},
	};
	uint32_t index = interface_index;

	add_attribute(&request, RTA_DST, &eid, sizeof eid);
	add_attribute(&request, RTA_OIF, &index, sizeof index);
	if (unit) {
		struct rtattr metric[2] = {{.rta_type = RTAX_MTU, .rta_len = RTA_LENGTH(sizeof unit)}};
		memcpy(RTA_DATA(metric), &unit, sizeof unit);
		add_attribute(&request, RTA_METRICS | NLA_F_NESTED, metric, RTA_LENGTH(sizeof unit));
	}
	return exchange(&request);
}

/* ---- Messages ---- */

/* Reads hex digits into `bytes`, and returns how many bytes they are. */
static size_t read_hex(const char *digits)
{
	size_t count = 0;
	unsigned byte;

	for (; digits && digits[0] && digits[1] && count < MAX_BYTES; digits += 2) {
		if (sscanf(digits, "%2x", &byte) != 1)
			break;
		bytes[count++] = byte;
	}
	return count;
}

static int number(int place)
{
	return words[place] ? atoi(words[place]) : 0;
}

static int send_message(uint8_t eid, uint8_t type, uint8_t tag, size_t count)
{
	struct sockaddr_mctp to = {
		.smctp_family = AF_MCTP,
		.smctp_network = MCTP_NET_ANY,
		.smctp_addr = {eid},
		.smctp_type = type,
		.smctp_tag = tag,
	};

	return sendto(message_socket, bytes, count, 0, (void *)&to, sizeof to);
}

/* By extended addressing: the interface is named, so that no route is needed, and an endpoint that has no endpoint ID
 * yet is reached at the null one. The serial line has no address of its own: 0. */
static int send_physical(uint8_t eid, uint8_t type, uint8_t address, size_t count)
{
	struct sockaddr_mctp_ext to = {
		.smctp_base = {
			.smctp_family = AF_MCTP,
			.smctp_network = 1,
			.smctp_addr = {eid},
			.smctp_type = type,
			.smctp_tag = MCTP_TAG_OWNER,
		},
		.smctp_ifindex = interface_index,
		.smctp_halen = address ? 1 : 0,
		.smctp_haddr = {address},
	};

	return sendto(physical_socket, bytes, count, 0, (void *)&to, sizeof to);
}

/* Waits for a message on either socket, and writes it. */
static void receive(int milliseconds)
{
	struct pollfd sockets[2] = {{.fd = message_socket, .events = POLLIN}, {.fd = physical_socket, .events = POLLIN}};
	struct sockaddr_mctp_ext from = {0};
	socklen_t size = sizeof from;
	ssize_t count;

	if (poll(sockets, 2, milliseconds) <= 0) {
		answer("nothing");
		return;
	}
	count = recvfrom(sockets[0].revents ? message_socket : physical_socket, bytes, MAX_BYTES, 0, (void *)&from, &size);
	if (count < 0) {
		answer_status(-1);
		return;
	}
	fprintf(answers, "message %u %u %u ", from.smctp_base.smctp_addr.s_addr, from.smctp_base.smctp_type,
		from.smctp_base.smctp_tag);
	for (ssize_t i = 0; i < count; i++)
		fprintf(answers, "%02x", bytes[i]);
	answer("");
}

static void ask(void)
{
	if (send_message(number(1), number(2), number(3), read_hex(words[5])) < 0)
		answer_status(-1);
	else
		receive(number(4));
}

static void keep_tag(bool keep)
{
	struct mctp_ioc_tag_ctl control = {.peer_addr = number(1), .tag = keep ? 0 : number(2)};
	int status = ioctl(message_socket, keep ? SIOCMCTPALLOCTAG : SIOCMCTPDROPTAG, &control);

	if (keep && status >= 0)
		answer("tag %u", control.tag);
	else
		answer_status(status);
}

static void tell_statistics(void)
{
	static const char *const names[] = {"tx_packets", "tx_dropped", "tx_errors", "rx_packets",
					    "rx_dropped", "rx_crc_errors", "rx_length_errors"};

	for (size_t i = 0; i < sizeof names / sizeof *names; i++) {
		char path[120];
		unsigned long value = 0;
		snprintf(path, sizeof path, "/sys/class/net/%s/statistics/%s", interface, names[i]);
		FILE *file = fopen(path, "r");
		if (!file || fscanf(file, "%lu", &value) != 1)
			fail(path);
		fclose(file);
		fprintf(answers, "%s %lu ", names[i], value);
	}
	answer("");
}

/* ---- Commands ---- */

/* The line that the commands after it are of. */
static void choose_line(int place)
{
	if (place < 0 || place >= MAX_LINES || !if_nametoindex(serial_interfaces[place])) {
		answer("error ENODEV");
		return;
	}
	use_line(place);
	answer("ok");
}

/* Does what the words say. False at the end. */
static bool obey(void)
{
	const char *what = words[0];

	if (!strcmp(what, "line"))
		choose_line(number(1));
	else if (!strcmp(what, "address"))
		answer_status(add_address(number(1)));
	else if (!strcmp(what, "neighbour"))
		answer_status(change_neighbour(RTM_NEWNEIGH, number(1), number(2)));
	else if (!strcmp(what, "unneighbour"))
		answer_status(change_neighbour(RTM_DELNEIGH, number(1), 0));
	else if (!strcmp(what, "route"))
		answer_status(change_route(RTM_NEWROUTE, number(1), number(2)));
	else if (!strcmp(what, "unroute"))
		answer_status(change_route(RTM_DELROUTE, number(1), 0));
	else if (!strcmp(what, "tag"))
		keep_tag(true);
	else if (!strcmp(what, "untag"))
		keep_tag(false);
	else if (!strcmp(what, "send"))
		answer_status(send_message(number(1), number(2), number(3), read_hex(words[4])));
	else if (!strcmp(what, "physical"))
		answer_status(send_physical(number(1), number(2), number(3), read_hex(words[4])));
	else if (!strcmp(what, "receive"))
		receive(number(1));
	else if (!strcmp(what, "ask"))
		ask();
	else if (!strcmp(what, "statistics"))
		tell_statistics();
	else if (!strcmp(what, "end"))
		return false;
	else
		answer("unknown %s", what);
	return true;
}

static void mount_file_systems(void)
{
	/* A folder may be there already. */
	mkdir("/dev", 0755);
	mkdir("/sys", 0755);
	mount("dev", "/dev", "devtmpfs", 0, NULL); /* the kernel may have done so itself */
	mkdir("/dev/pts", 0755);
	if (mount("pts", "/dev/pts", "devpts", 0, "ptmxmode=0666") || mount("sys", "/sys", "sysfs", 0, NULL))
		fail("mount");
}

int main(void)
{
	static char line[2 * MAX_BYTES];
	const char *binding = getenv("binding"), *count = getenv("lines");
	int lines = count && atoi(count) >= 1 && atoi(count) <= MAX_LINES ? atoi(count) : 1;
	FILE *commands;

	mount_file_systems();
	int command_line = open_raw(COMMAND_LINE);
	commands = fdopen(command_line, "r");
	answers = fdopen(dup(command_line), "w");
	if (!commands || !answers)
		fail("fdopen");
	if (binding && !strcmp(binding, "i2c")) {
		attach_i2c();
		start_interface();
	} else {
		for (int place = 0; place < lines; place++) {
			attach_serial(place);
			start_interface();
		}
		use_line(0);
	}
	open_sockets();
	answer("ready");
	while (fgets(line, sizeof line, commands)) {
		char *rest = line;
		memset(words, 0, sizeof words);
		for (int i = 0; i < MAX_WORDS && (words[i] = strsep(&rest, " \r\n")); i++)
			;
		if (!obey())
			break;
	}
	answer("ended");
	reboot(RB_POWER_OFF);
	return 0;
}
