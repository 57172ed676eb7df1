# The functions that ./mctpctl and the installed command `mctpctl` share: they set a terminal, which the program cannot.

# Sets a terminal by `stty` with these words behind the first: raw, a read that gets nothing ends after so many tenths
# of a second, the speed stays. Says what to type where that fails; what is no terminal is left to the program.
set_terminal() {
    how="raw -echo min 0 time $1"
    shift
    # shellcheck disable=SC2086
    said=$(LC_ALL=C stty "$@" $how 2>&1) && return 0
    case $said in
    *'Inappropriate ioctl'*) ;;
    *) printf 'mctpctl: the terminal was not set; type: stty -F %s %s\n' "${2-TERMINAL}" "$how" >&2 ;;
    esac
}

# Sets what a subcommand with these words asks on, a served device with --firmware too: the terminal that --line names,
# else standard input. That is not touched where it is standard error too, since it is then the user's own terminal. A
# device, and what brings it its image, wait for what comes; what asks has its pace, and looks each millisecond.
set_line() {
    case ${1-} in
    ask | walk | watch | assign) tenths=0 ;;
    update) tenths=1 ;;
    serve) case " $* " in *' --firmware'*) tenths=1 ;; *) return 0 ;; esac ;;
    *) return 0 ;;
    esac
    before='' line='' is_named=''
    for word in "$@"; do
        case $before$word in
        -h | --help) return 0 ;;
        --line=*) line=${word#--line=} is_named=yes ;;
        '--line '*) line=$word is_named=yes ;;
        esac
        [ "$word" = --line ] && before='--line ' || before=''
    done
    # shellcheck disable=SC3013
    if [ -c "$line" ]; then
        set_terminal $tenths -F "$line"
    elif [ -z "$is_named" ] && [ -t 0 ] && ! [ /dev/stdin -ef /dev/stderr ]; then
        set_terminal $tenths
    fi
}
