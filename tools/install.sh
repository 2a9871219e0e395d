#!/usr/bin/env bash
# Installs Tombolopan where others look for it, or takes it away again.
#     tools/install.sh PREFIX [FOLDER]
#     tools/install.sh --uninstall PREFIX
#
#     PREFIX/bin                  mte_host, mte_run, mte_why (why.sh), tenant-cc
#                                 and what else is named tenant-.. in examples/libc
#     PREFIX/lib                  libtombolopan.a, libtombolopan.so.2 (libtombolopan.so leads to it)
#     PREFIX/include              tombolopan.h, tombolopan_explain.h, tenant.h, tenant_check.h
#     PREFIX/lib/pkgconfig        tombolopan.pc
#     PREFIX/share/man            pages of the programs (1) and of the library and its calls (3)
#     PREFIX/share/bash-completion, share/zsh, share/fish: completions
#     PREFIX/share/tombolopan     tombolopan (the package of Python), tombolopan.rs, start.c,
#                                 examples, the libraries of tenants (of C, C++ and Rust) where they
#                                 are built, installed (the list of all this)
#     PREFIX/share/doc/tombolopan the pages
#
# A copy of PREFIX elsewhere works too. What is not built yet is proved and built first
# (tools/build.sh; with its --unproved it takes minutes). FOLDER has mte_host, mte_run
# and libtombolopan_c.a that were built elsewhere, and may have libc, which is examples/libc/out of
# where tools/build.sh was run. DESTDIR, a variable, is put in front of PREFIX.
set -euo pipefail
here=$(cd "$(dirname "$0")" && pwd)
top=$(cd "$here/.." && pwd)
usage='usage: install.sh [--uninstall] PREFIX [FOLDER] (--help)'
list=share/tombolopan/installed

is_uninstall=no
case ${1:-} in
    --help | -h) sed -n '2,/^set/s/^# \{0,1\}//p' "$0"; exit ;;
    --uninstall) is_uninstall=yes; shift ;;
esac
if [[ $# -lt 1 || $# -gt 2 || -z $1 || $1 == -* || ($is_uninstall == yes && $# -ne 1) ]]; then
    echo "$usage" >&2
    exit 2
fi
prefix=$(realpath -m -- "$1")
root=${DESTDIR:-}$prefix
built=${2:-}

# Takes away what the list names, and folders that the installation made and that are empty then.
uninstall() {
    local name
    if [[ ! -f $root/$list ]]; then
        echo "install.sh: nothing is installed there: no $root/$list" >&2
        exit 2
    fi
    mapfile -t names <"$root/$list"
    for name in "${names[@]}"; do
        [[ $name == */ ]] || rm -f "${root:?}/$name"
    done
    rm -f "$root/$list"
    while read -r name; do
        rm -rf "${root:?}/${name}__pycache__"
        rmdir "$root/$name" 2>/dev/null ||
            [[ ! -d $root/$name ]] || echo "install.sh: has other files, so it stays: $root/$name"
    done < <(printf '%s\n' "${names[@]}" | grep '/$' | LC_ALL=C sort -r)
}
if [[ $is_uninstall == yes ]]; then
    uninstall
    echo "install.sh: nothing of it is left in $prefix"
    exit
fi

missing=
for tool in rt cc ar python3; do
    command -v "$tool" >/dev/null || missing="$missing $tool"
done
if [[ -n $missing ]]; then
    echo "install.sh: missing:$missing" >&2
    exit 2
fi
# Where the library takes memory, by the toolchain's names for malloc, realloc and free.
heap=$(dirname "$(rt doc | head -n 1)")/c/liblibc_c.a
work=$(mktemp -d)
trap 'rm -rf "$work"' EXIT
stage=$work/stage
unproved=() tenants=()

# Copies a program, or the archive, from where it was built; builds what is not there.
take() {
    local crate=${1#lib} file how=()
    file=$built/$1
    if [[ -z $built ]]; then
        file=$top/crates/${crate%.a}/out/$1
        [[ -e $file ]] || "$here/build.sh" --only "$1"
    fi
    cp "$file" "$work/$1"
    if [[ -e $file.unproved ]] && (cd "${file%/*}" && sha256sum -c --status "$1.unproved"); then
        unproved+=("$1")
        how=(--unproved)
    fi
    "$here/mark.py" "${how[@]}" "$work/$1"
}

# Puts files into a folder of the prefix; those that can be run stay so.
put() {
    local folder=$stage/$1 file mode
    shift
    for file in "$@"; do
        mode=644
        [[ ! -x $file ]] || mode=755
        install -D -m "$mode" -t "$folder" "$file"
    done
}

put_libraries() {
    local how=()
    # One archive of both, so that -ltombolopan is all that a program names.
    printf 'create %s\naddlib %s\naddlib %s\nsave\nend\n' \
        "$work/libtombolopan.a" "$work/libtombolopan_c.a" "$heap" | ar -M
    "$top/examples/embed/shared.sh" "$work/libtombolopan.so.2" "$work/libtombolopan_c.a"
    if [[ " ${unproved[*]} " == *" libtombolopan_c.a "* ]]; then how=(--unproved); fi
    "$here/mark.py" "${how[@]}" "$work/libtombolopan.so.2"
    cat >"$work/tombolopan.pc" <<PC
prefix=\${pcfiledir}/../..
includedir=\${prefix}/include
libdir=\${prefix}/lib

Name: tombolopan
Description: sessions of isolated A64 tenants with memory tagging
Version: $(sed -n 's/^#define TB_VERSION //p' "$top/include/tombolopan.h")
Cflags: -I\${includedir}
Libs: -L\${libdir} -ltombolopan
PC
    put lib "$work/libtombolopan.a" "$work/libtombolopan.so.2"
    ln -s libtombolopan.so.2 "$stage/lib/libtombolopan.so"
    put include "$top"/include/tombolopan{,_explain}.h "$top/examples/c/tenant.h" \
        "$top/examples/libc/include/tenant_check.h"
    put lib/pkgconfig "$work/tombolopan.pc"
    put share/tombolopan "$top/examples/embed/tombolopan.rs" "$top/examples/c/start.c"
    put share/tombolopan/tombolopan "$top"/examples/embed/tombolopan/*.py \
        "$top/examples/embed/tombolopan/py.typed"
    put share/tombolopan/tombolopan_profile "$top"/examples/embed/tombolopan_profile/*.py \
        "$top/examples/embed/tombolopan_profile/py.typed"
    chmod 644 "$stage"/share/tombolopan/tombolopan.rs "$stage"/share/tombolopan/tombolopan/*
}

# The examples, but for what was built in them; what tenant-cc reads of the table; and tools/batch,
# which examples/many runs.
put_examples() {
    mkdir -p "$stage/share/tombolopan"
    (cd "$top" && find examples -type d \( -name out -o -name __pycache__ \) -prune -o \
        -type f ! -name '*.so' ! -name '*.pyc' -print0 |
        xargs -0 cp --parents -t "$stage/share/tombolopan")
    chmod -R u=rwX,go=rX "$stage/share/tombolopan/examples"
    put share/tombolopan/tools/a64 "$top/tools/a64/__init__.py" "$top/tools/a64/table.py"
    put share/tombolopan/tools/batch "$top"/tools/batch/*.py "$top"/tools/batch/*.json
    put share/tombolopan/isa "$top/isa/a64.rows" "$top/isa/a64.forms"
    ln -s ../share/tombolopan/examples/why.sh "$stage/bin/mte_why"
    # The examples find the programs as in a checkout.
    for file in mte_host mte_run; do
        mkdir -p "$stage/share/tombolopan/crates/$file/out"
        ln -s "../../../../../bin/$file" "$stage/share/tombolopan/crates/$file/out/$file"
    done
}

# The libraries of tenants, where tenant-cc and examples/rust look for them; without that of C there
# is no tenant-cc, and none of the programs beside it.
put_libc() {
    local libc=$top/examples/libc/out made=$stage/share/tombolopan/examples/libc/out part file
    local name
    [[ -z $built ]] || libc=$built/libc
    if [[ ! -e $libc/lib/libc.a ]]; then
        echo "install.sh: without tenant-cc: its C library is not built (tools/build.sh)" >&2
        return
    fi
    mkdir -p "$made"
    for part in "$libc"/*; do
        case ${part##*/} in
            sources | objects | sum) ;;
            *) cp -RL "$part" "$made" ;;
        esac
    done
    chmod -R u=rwX,go=rX "$made"
    # An assembler writes where its source was.
    for file in "$made"/lib/*.a; do
        (cd "$work" && for part in $(llvm-ar t "$file" | grep '\.S\.o$' || true); do
            llvm-ar x "$file" "$part"
            llvm-objcopy --strip-debug "$part"
            llvm-ar r "$file" "$part"
        done)
    done
    for file in "$top"/examples/libc/tenant-*; do
        name=${file##*/}
        ln -s "../share/tombolopan/examples/libc/$name" "$stage/bin/$name"
        "$here/manual.py" comment "$file" >"$work/$name.help"
        tenants+=("$name")
    done
}

# Manual pages and completions, of what each program says of itself and of the pages.
put_texts() {
    local name call
    "$work/mte_host" --help >"$work/mte_host.help"
    "$work/mte_run" --help-all >"$work/mte_run.help"
    (cd "$stage/bin" && ./mte_why --help) >"$work/mte_why.help"
    for name in mte_host mte_run mte_why "${tenants[@]}"; do
        "$here/manual.py" program "$name" <"$work/$name.help" >"$work/$name.1"
        put share/man/man1 "$work/$name.1"
    done
    "$here/manual.py" header <"$top/include/tombolopan.h" >"$work/tombolopan.3"
    put share/man/man3 "$work/tombolopan.3"
    for call in $("$here/manual.py" calls <"$top/include/tombolopan.h"); do
        echo ".so man3/tombolopan.3" >"$stage/share/man/man3/$call.3"
    done
    cp "$work/mte_run.help" "$work/mte_why.help"
    mkdir -p "$stage"/share/{bash-completion/completions,zsh/site-functions}
    mkdir -p "$stage"/share/fish/vendor_completions.d
    for name in mte_host mte_run mte_why "${tenants[@]}"; do
        call="$here/completions.py"
        "$call" bash "$name" <"$work/$name.help" >"$stage/share/bash-completion/completions/$name"
        "$call" zsh "$name" <"$work/$name.help" >"$stage/share/zsh/site-functions/_$name"
        "$call" fish "$name" <"$work/$name.help" \
            >"$stage/share/fish/vendor_completions.d/$name.fish"
    done
    put share/doc/tombolopan "$top/README.md" "$top/CHANGELOG.md"
    put share/doc/tombolopan/docs "$top"/docs/*.md
    put share/doc/tombolopan/docs/project "$top"/docs/project/*.md
    put share/doc/tombolopan/docs/pictures "$top"/docs/pictures/*
}

# Which of the files are built without proof, with their sums.
mark() {
    local name files=()
    for name in "${unproved[@]}"; do
        case $name in
            *.a) files+=(../../lib/libtombolopan.a ../../lib/libtombolopan.so.2) ;;
            *) files+=("../../bin/$name") ;;
        esac
    done
    (cd "$stage/share/tombolopan" && sha256sum "${files[@]}" >unproved)
    echo "install.sh: built without proof: ${unproved[*]}" >&2
}

# Copies the stage into the prefix, with a list of files and of folders that were made for it.
copy_all() {
    local name
    export LC_ALL=C
    mkdir -p "$root"
    : >"$work/old"
    [[ ! -f $root/$list ]] || sort "$root/$list" >"$work/old"
    (cd "$stage" && find . -mindepth 1 ! -type d -printf '%P\n') | sort >"$work/files"
    while read -r name; do
        [[ -d $root/$name ]] && ! grep -qxF "$name" "$work/old" || echo "$name"
    done < <(cd "$stage" && find . -mindepth 1 -type d -printf '%P/\n') >"$work/folders"
    (cd "$stage" && find . -mindepth 1 -type d -printf '%P\0') | (cd "$root" && xargs -0 mkdir -p)
    tar -C "$stage" -cf - -T "$work/files" | tar -C "$root" -xf - --no-same-owner --unlink-first
    # What an earlier installation had and this one has not.
    while read -r name; do
        [[ $name == */ ]] || rm -f "${root:?}/$name"
    done < <(comm -23 "$work/old" "$work/files")
    sort "$work/files" "$work/folders" >"$work/list"
    install -m 644 "$work/list" "$root/$list"
}

umask 022
for name in mte_host mte_run libtombolopan_c.a; do
    take "$name"
done
mkdir -p "$stage/bin"
put bin "$work/mte_host" "$work/mte_run"
put_libraries
put_examples
put_libc
put_texts
[[ ${#unproved[@]} -eq 0 ]] || mark
copy_all
echo "install.sh: installed into $prefix"
echo "install.sh: for Python: PYTHONPATH=$prefix/share/tombolopan"
echo "install.sh: where it is no usual place: PKG_CONFIG_PATH=$prefix/lib/pkgconfig" \
    "LD_LIBRARY_PATH=$prefix/lib MANPATH=$prefix/share/man: PATH=$prefix/bin:\$PATH"
