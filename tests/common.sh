# What the scripts share. A script sources this file with `me` set to its name, for its messages, and `top` to the repository's folder: a
# whole path, behind any symbolic link, so that neither the folder one stands in nor CDPATH matters.
unset CDPATH
die() { echo "$me: $*" >&2; exit 2; }

# What nobody can read is no success.
(: 3>&1) 2>/dev/null || die "standard output is closed"
lost() { die "standard output cannot be written to: not everything was said"; }

# The kit's command rt.
find_kit() {
    command -v rt >/dev/null 2>&1 || die "the Rattle kit's command rt is not on the PATH"
}

# And `tools`, its programs and libraries for this machine.
find_tools() {
    find_kit
    guide=$(rt doc) || die "rt doc does not say where the kit is"
    tools=${guide%/*}/toolchain
}

# One at a time in the crates' folders out/: rt proves and builds there, and keeps another rt out of a crate only while it does so. The lock is
# the kernel's, on the open folder: it ends with its holder, however that ends, and leaves no file. Who holds it while its parts run names
# another lock for those in SHELUNDIYI_LOCK.
lock() {
    command -v flock >/dev/null 2>&1 || { echo "$me: this machine has no flock: see that only one script works here at a time" >&2; return 0; }
    exec 9<"${SHELUNDIYI_LOCK:-$top}"
    flock -n 9 && return 0
    echo "$me: waiting for another script that works in $top/crates" >&2
    flock 9 || die "the folder $top cannot be locked"
}
unlock() { exec 9<&-; }
