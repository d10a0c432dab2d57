# Which program stands for the sources of this checkout. `kubeconv`, `explain`, `check`, `.ci/run`, tools/build.py and tools/compile.py read
# these functions; `top` is the checkout's folder. What is kept stands in `out/`, which git passes over:
#
#     out/sources        the sums of all sources and of those that are compiled (src/, crates.txt), and the folders that they stand in.
#                        Its time is that before the first of them was read
#     out/paths          the files and folders that were summed
#     out/proved/SUM     the program that was proved of the sources of this sum
#     out/compiled/SUM   the program that was compiled of the sources of this sum, and not proved
#     out/first/SUM      the same, compiled as fast as can be: it answers until the other one stands
#     out/CRATE/SUM      a program of cases, compiled as `compiled` is
#
# A name holds a whole program or none, since it is put there by `mv`; and a program is found by the sum of its sources alone.
kept=$top/out whole=''

in_top() {
    (CDPATH='' cd "$top" && "$@")
}

# The folders that sources stand in, of all crates.
folders() {
    echo crates/*/src crates/*/specs crates/*/proofs
}

# Whether no source, and no folder of sources, changed since the time of a file, and none was added or removed. Where it can't be told
# by times, as with a `find` that lacks these words, they changed.
is_unchanged_since() {
    changed=$(in_top find -files0-from "$kept/paths" -maxdepth 0 -cnewer "$1" -print -quit 2>&1) && [ -z "$changed" ]
}

# Reads the sums as `whole` and `own`, and the folders as `stood`. They hold where nothing changed since.
read_sums() {
    [ -f "$kept/sources" ] && { read -r whole && read -r own && read -r stood; } <"$kept/sources"
}

are_summed() {
    read_sums && [ "$stood" = "$(in_top folders)" ] && is_unchanged_since "$kept/sources"
}

files_and_sums() {
    find $(folders) crates.txt HANDLES -type f -exec sha256sum {} + | LC_ALL=C sort -k 2
}

# Sums the sources anew, and reads the sums.
sum_sources() {
    new=$kept/new.$$
    mkdir -p "$kept" && : >"$new.mark" || return 1
    in_top folders >"$new.folders" &&
        in_top find $(in_top folders) crates.txt HANDLES -print0 >"$new.paths" &&
        in_top files_and_sums >"$new.files" &&
        {
            sha256sum <"$new.files"
            grep -e '/src/' -e ' crates.txt$' "$new.files" | sha256sum
        } | cut -c 1-64 >"$new.sums" &&
        cat "$new.folders" >>"$new.sums" &&
        touch -r "$new.mark" "$new.sums" &&
        mv "$new.paths" "$kept/paths" &&
        mv "$new.sums" "$kept/sources"
    summed=$?
    rm -f "$new".*
    [ "$summed" -eq 0 ] && read_sums
}

# Whether a program of a kind stands for the sources that were summed. Its path is `program`.
stands() {
    [ -n "${whole-}" ] || are_summed || sum_sources || return 1
    case $1 in
    proved) program=$kept/$1/$whole ;;
    *) program=$kept/$1/$own ;;
    esac
    [ -x "$program" ]
}

# Finds the `program` that stands for the sources as they are, and its `kind`: the one that is proved, else the one that is compiled, else
# the first one.
find_program() {
    kind='' is_proved=''
    find_kind proved compiled first && { [ "$kind" != proved ] || is_proved=yes; }
}

# The same, of these kinds.
find_kind() {
    are_summed || sum_sources || return 1
    for kind; do
        stands "$kind" && return
    done
    kind=''
    return 1
}

# Prints the path of the program that is found.
find_one() {
    find_kind "$@" && echo "$program"
}

# Begins a build: sums the sources, and copies the sums to a file, to be told to `keep` at the end.
begin() {
    sum_sources && cp -p "$kept/sources" "$1"
}

# Keeps a program of a kind for the sources that it was made of, where none of them changed since `begin`.
keep() {
    of_kind=$1 made=$2 begun=$3
    if ! is_unchanged_since "$begun" || ! sum_sources || ! cmp -s "$begun" "$kept/sources"; then
        echo "kubeconv: a source changed while the program was built of it, so it isn't kept" >&2
        return 1
    fi
    stands "$of_kind"
    mkdir -p "$kept/$of_kind" &&
        cp "$made" "$kept/new.$$.program" &&
        chmod +x "$kept/new.$$.program" &&
        mv "$kept/new.$$.program" "$program" &&
        forget_old "$kept/$of_kind"
}

# Leaves the three programs that were kept last.
forget_old() {
    ls -t "$1" | sed 1,3d | while read -r old; do
        rm -f "$1/$old"
    done
}
