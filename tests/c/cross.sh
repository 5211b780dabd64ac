# Sourced by the scripts in this folder. For the libraries of another machine:
#
# POTTERBEAM_CROSS  the prefix of its gcc, g++ and nm, as aarch64-linux-gnu-; none unless given
# POTTERBEAM_RUN    what runs its programs, as qemu-aarch64; nothing unless given
# shellcheck shell=bash
gcc() { command "${POTTERBEAM_CROSS:-}gcc" "$@"; }
g++() { command "${POTTERBEAM_CROSS:-}g++" "$@"; }
nm() { command "${POTTERBEAM_CROSS:-}nm" "$@"; }
read -ra run <<< "${POTTERBEAM_RUN:-}"

# without_version NAME WHERE: sorts the names of functions, and takes out the one that carries the version, NAME_0_4_0, which must be among them.
# If it is not, nothing is printed.
without_version() {
    local version names
    version=$1$(awk '$1 == "#define" && $2 ~ /^PBEAM_VERSION_(MAJOR|MINOR|PATCH)$/ { printf "_%s", $3 }' include/potterbeam_common.h)
    names=$(sort -u)
    grep -qx "$version" <<< "$names" || { echo "FAILED: $version is not among the $2" >&2; return 1; }
    grep -vx "$version" <<< "$names"
}
