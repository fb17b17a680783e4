# What the scripts of this repository share. Each of them sources it from the root of the checkout:
#     cd "$(dirname "$0")/.." && . tools/common.sh || exit 1

# The archive that a script builds with or looks at. KETVAULO_ARCHIVE names another than that of this checkout, by its full path.
archive=${KETVAULO_ARCHIVE:-target/staticlib/libketvaulo.a}

# say TEXT..: a line on standard error, with the script's name in front
say() { printf '%s: %s\n' "${0##*/}" "$*" >&2; }

# install_for FILE PACKAGE ..: installs each package whose file is missing, with apt_options. A file without a slash is a command.
install_for() {
    local missing=() as_root=()
    while [ $# -gt 0 ]; do
        case $1 in
        */*) [ -e "$1" ] || missing+=("$2") ;;
        *) command -v "$1" >/dev/null || missing+=("$2") ;;
        esac
        shift 2
    done
    [ ${#missing[@]} -gt 0 ] || return 0
    [ "$(id -u)" -eq 0 ] || as_root=(sudo)
    say "installing ${missing[*]}"
    { "${as_root[@]}" apt-get -q update && "${as_root[@]}" apt-get -q install -y ${apt_options:-} "${missing[@]}"; } >&2 ||
        { say "cannot install ${missing[*]}"; return 1; }
}

# The module that the archive is compiled from, and the words of that compilation. KETVAULO_MODULE names another module.
module=${KETVAULO_MODULE:-target/module/ketvaulo.bc}
module_flags=target/module/ketvaulo.flags

# kit_folder: where the kit of rt is; its compiler, linker and archiver are in tools_folder
kit_folder() {
    local rt
    rt=$(command -v rt) || { say 'there is no rt: the Rattle kit is missing'; return 1; }
    (cd "$(dirname "$(readlink -f "$rt")")/.." && pwd -P)
}
tools_folder() { echo "$(kit_folder)/toolchain/bin"; }

# is_fresh FILE: whether it is there and nothing is newer that a crate is proved of. A folder is newer when a file was taken out of it.
is_fresh() {
    [ -e "$1" ] && [ ! crates.txt -nt "$1" ] && [ -z "$(find crates -mindepth 2 \( -name out -o -name must-fail -o -name data \) -prune -o -newer "$1" -print -quit)" ]
}

# logged WHAT COMMAND..: runs a command that makes something, and shows what it printed only where it failed
logged() {
    local what=$1 log
    shift
    say "making $what, which takes long where the crates are not proved yet"
    log=$("$@" 2>&1) || { printf '%s\n' "$log" >&2; say "cannot make $what"; return 1; }
}

# Makes the archive where it is not fresh. One that KETVAULO_ARCHIVE names is taken as it is.
make_archive() {
    if [ -n "${KETVAULO_ARCHIVE:-}" ] || is_fresh "$archive"; then return 0; fi
    logged libketvaulo.a build_library "$archive"
}

# Makes the module where it is not fresh. One that KETVAULO_MODULE names is taken as it is, with the words of this checkout's own.
make_module() {
    if is_fresh "$module_flags" && { [ -n "${KETVAULO_MODULE:-}" ] || is_fresh "$module"; }; then return 0; fi
    logged 'the module' build_module
}

# build_library ARCHIVE: the library as an archive for x86-64 without extensions: by rt lib, or over what .ci/run has just proved, where no source is newer
# than that. (rt lib takes no library that rt ci has proved, and so would prove all of them once more.)
build_library() {
    mkdir -p "$(dirname "$1")" || return 1
    if is_fresh target/proved && build_over_proved "$1"; then return 0; fi
    (cd crates/ketvaulo && rt lib --cpu x86-64) && cp crates/ketvaulo/out/libketvaulo.a "$1"
}

# Checks the crate over the libraries that rt ci left in each crate's out/, by the words of rt lib, and then compiles what was checked.
build_over_proved() {
    local kit name words=()
    kit=$(kit_folder) || return 1
    words=(--crate-name ketvaulo crates/ketvaulo/src/lib.rt --crate-type staticlib --cpu x86-64 --extern "std=$kit/rlibs/std.rlib")
    for name in $(sed -n 's/^ketvaulo staticlib: *//p' crates.txt); do words+=(--extern "$name=crates/$name/out/rlib/$name.rlib"); done
    for name in crates/*/out/rlib; do words+=(-L "dependency=$name"); done
    words+=(-L "dependency=$kit/rlibs" --antt-project "$kit/rattle/logic/antt-project.json")
    is_fresh target/checked ||
        { rm -rf target/checked && "$kit/bin/rattle" check "${words[@]}" --logic-built "$kit/logic_built" --jobs 2 -o target/checked; } || return 1
    "$kit/bin/rattle" build "${words[@]}" --crate-checked target/checked --toolchain "$kit/toolchain" --backend llvm -o "$1"
}

# The module is had by a build apart from that of the archive. rattle hands it to its clang in a folder below TMPDIR, which it removes at the end;
# tools/keep_module gives the module a second name meanwhile, and notes the words that clang was called with. It changes nothing of the build, and
# tests/archive.sh holds the object in the archive against the one compiled from the module.
build_module() {
    local folder=$PWD/target/module keeper
    rm -rf "$folder" && mkdir -p "$folder/tmp" || return 1
    tools/keep_module "$folder/tmp" "$folder/ketvaulo.bc" "$folder/ketvaulo.flags" &
    keeper=$!
    TMPDIR=$folder/tmp build_library "$folder/libketvaulo.a" || { kill "$keeper"; return 1; }
    rm -rf "$folder/tmp"
    wait "$keeper"
}

# core_flags TARGET: the flags by which clang compiles for the core of a controller; status 1 where it is no target
core_flags() {
    # memcpy and its kin by their C names, and not as __aeabi_memcpy
    local arm='-meabi gnu'
    case $1 in
    cortex-m0plus) echo "--target=thumbv6m-none-eabi -mcpu=cortex-m0plus -mfloat-abi=soft $arm" ;;
    cortex-m3) echo "--target=thumbv7m-none-eabi -mcpu=cortex-m3 -mfloat-abi=soft $arm" ;;
    cortex-m4) echo "--target=thumbv7em-none-eabi -mcpu=cortex-m4 -mfloat-abi=soft $arm" ;;
    cortex-m4f) echo "--target=thumbv7em-none-eabihf -mcpu=cortex-m4 -mfloat-abi=hard -mfpu=fpv4-sp-d16 $arm" ;;
    cortex-m7f) echo "--target=thumbv7em-none-eabihf -mcpu=cortex-m7 -mfloat-abi=hard -mfpu=fpv5-d16 $arm" ;;
    cortex-m33) echo "--target=thumbv8m.main-none-eabi -mcpu=cortex-m33 -mfloat-abi=soft $arm" ;;
    cortex-m33f) echo "--target=thumbv8m.main-none-eabihf -mcpu=cortex-m33 -mfloat-abi=hard -mfpu=fpv5-sp-d16 $arm" ;;
    rv32imac) echo '--target=riscv32-unknown-elf -march=rv32imac -mabi=ilp32' ;;
    *) return 1 ;;
    esac
}

# The calls that the header declares, in its order.
declared_calls() { awk -f tools/header.awk include/ketvaulo.h | sed -n 's/^\(kv_[a-z0-9_]*\) .*(.*/\1/p'; }

# The library's version, which the header states.
version() { sed -n 's/^#define KV_VERSION "\(.*\)"$/\1/p' include/ketvaulo.h; }

# install_package PREFIX ARCHIVE TEXT: archive, headers, and the files by which pkg-config and CMake find them
install_package() {
    local prefix=$1 version header
    version=$(version)
    [ -n "$version" ] || { say 'the header has no KV_VERSION'; return 1; }
    install -D -m 644 "$2" "$prefix/lib/libketvaulo.a"
    for header in include/*.h; do install -D -m 644 "$header" "$prefix/$header"; done
    mkdir -p "$prefix/lib/pkgconfig" "$prefix/lib/cmake/ketvaulo"
    cat >"$prefix/lib/pkgconfig/ketvaulo.pc" <<PC
prefix=$prefix
libdir=\${prefix}/lib
includedir=\${prefix}/include

Name: ketvaulo
Description: proved key library for yard radio controllers, $3
Version: $version
Libs: -L\${libdir} -lketvaulo
Cflags: -I\${includedir}
PC
    cat >"$prefix/lib/cmake/ketvaulo/ketvaulo-config.cmake" <<'CMAKE'
# find_package(ketvaulo CONFIG) gives the target ketvaulo::ketvaulo
get_filename_component(ketvaulo_prefix "${CMAKE_CURRENT_LIST_DIR}/../../.." ABSOLUTE)
if(NOT TARGET ketvaulo::ketvaulo)
  add_library(ketvaulo::ketvaulo STATIC IMPORTED)
  set_target_properties(ketvaulo::ketvaulo PROPERTIES
    IMPORTED_LOCATION "${ketvaulo_prefix}/lib/libketvaulo.a"
    IMPORTED_LINK_INTERFACE_LANGUAGES C
    INTERFACE_INCLUDE_DIRECTORIES "${ketvaulo_prefix}/include")
endif()
CMAKE
    cat >"$prefix/lib/cmake/ketvaulo/ketvaulo-config-version.cmake" <<CMAKE
set(PACKAGE_VERSION "$version")
if(PACKAGE_VERSION VERSION_LESS PACKAGE_FIND_VERSION)
  set(PACKAGE_VERSION_COMPATIBLE FALSE)
else()
  set(PACKAGE_VERSION_COMPATIBLE TRUE)
  if(PACKAGE_VERSION VERSION_EQUAL PACKAGE_FIND_VERSION)
    set(PACKAGE_VERSION_EXACT TRUE)
  endif()
endif()
CMAKE
}

# check NAME COMMAND..: counts the command as passed or failed
passed=0 failed=0
check() {
    local name=$1
    shift
    if "$@"; then
        passed=$((passed + 1))
    else
        failed=$((failed + 1))
        printf '%s: %s failed\n' "$0" "$name"
    fi
}

# The last line of a script that checks; its status is 0 only if nothing failed.
tell_counts() {
    printf '%s passed, %s failed\n' "$passed" "$failed"
    [ "$failed" -eq 0 ]
}
