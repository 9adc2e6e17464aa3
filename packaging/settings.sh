# shellcheck shell=dash
# What the shell that runs the program sees to. ./groupdesign and the installed command both read this.

# A write past a limit of the size of files is an error of that write, and no signal.
trap '' XFSZ

# Goes on as the program, with the words behind it. It asks the C library for large pages, taken 32 MiB at a time: a long log
# takes much memory, and mapping it in small ones took half the time.
become() {
    GLIBC_TUNABLES=${GLIBC_TUNABLES:-glibc.malloc.hugetlb=1:glibc.malloc.top_pad=33554432}
    export GLIBC_TUNABLES
    exec "$@"
}
