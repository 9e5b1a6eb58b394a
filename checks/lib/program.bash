# The program `interop`: where it stands built, what each was built from, and how it is built. For ./interop and ./check, which
# source this file and have set `here` to the top of the repository. It starts few processes, since it adds to each run of ./interop.
# shellcheck shell=bash

# The repository carries one program, which a proved build made, and another is built here where the sources have changed. In
# either folder a file `built-from` stands beside it: a line of the kit, and one with the digest of the sources.
carried=${here:?}/program
built=$here/crates/interop/out
# What the sources looked like when their digest was made last, and that digest.
seen=$built/sources.seen

# Sets `needed` to the crates that the program is built from, and `listed` to their lines of crates.txt.
read_needed() {
  local -A line_of=()
  local line name at
  while IFS= read -r line || [[ $line ]]; do
    line=${line%%#*}
    [[ $line =~ ^[[:space:]]*([A-Za-z0-9_-]+) ]] && line_of[${BASH_REMATCH[1]}]=$line
  done <"$here/crates.txt"
  needed=(interop) listed=
  for ((at = 0; at < ${#needed[@]}; at++)); do
    line=${line_of[${needed[at]}]-}
    listed+=$line$'\n'
    line=${line#*:}
    for name in ${line//,/ }; do
      [[ ${line_of[$name]+is} && " ${needed[*]} " != *" $name "* ]] && needed+=("$name")
    done
  done
}

# The digest of all that decides what the program is, beside the kit: the lines of crates.txt, HANDLES, and each file of the crates
# by its path below the repository.
digest_of() {
  set -o pipefail
  {
    printf '%s' "$listed" && cat HANDLES &&
      find "$@" ! -type d -print0 | LC_ALL=C sort -z | xargs -0r sha256sum
  } | sha256sum
}

# Sets `sources` to the digest of the sources as they stand. Where no file has changed since it was made last, by names, sizes and
# times of change, it is taken from the note of then. A change so young that another could have the same time is not noted.
digest_sources() {
  local name part places=() look was
  read_needed
  for name in "${needed[@]}"; do
    for part in src specs proofs; do
      [[ -d $here/crates/$name/$part ]] && places+=("crates/$name/$part")
    done
  done
  [[ ${places[*]} ]] || return 1
  look=$(cd -- "$here" && find crates.txt HANDLES "${places[@]}" -printf '%p %s %i %C@\n' | sha256sum) || return 1
  if [[ -f $seen ]] && { read -r was && read -r sources; } <"$seen" && [[ $was == "$look" && $sources ]]; then
    return 0
  fi
  sources=$(cd -- "$here" && digest_of "${places[@]}") || return 1
  sources=${sources%% *}
  if [[ -z $(cd -- "$here" && find crates.txt HANDLES "${places[@]}" -newerct '2 seconds ago' -print -quit) ]]; then
    { mkdir -p "$built" && printf '%s\n' "$look" "$sources" >"$seen.$$" && mv -f -- "$seen.$$" "$seen"; } 2>/dev/null
  fi
  return 0
}

# Sets `kit` to the line by which the kit on the path names itself, or to nothing.
know_kit() {
  local rt
  kit=
  hash rt 2>/dev/null && rt=$(readlink -f -- "${BASH_CMDS[rt]}") && read -r kit <"${rt%/*}/../KIT-ID"
}

# What a program that is built of these sources by this kit has beside it.
write_built_from() {
  printf '%s\n' "$kit" "sources sha256 $sources" >"$1"
}

# FOLDER: sets `its_kit` and `its_sources` to what the program in it was built from. Fails where none stands there.
read_built_from() {
  [[ -x $1/interop && -f $1/built-from ]] && { read -r its_kit && read -r _ _ its_sources; } <"$1/built-from"
}

# Sets `program` to one that is built of the sources as they stand: the carried one, which needs no kit, or one that was built here,
# by the kit on the path if there is one. Fails where there is none.
find_program() {
  digest_sources || return 1
  # shellcheck disable=SC2034 # (./interop runs it)
  program=$carried/interop
  read_built_from "$carried" && [[ $its_sources == "$sources" ]] && return 0
  # shellcheck disable=SC2034
  program=$built/interop
  read_built_from "$built" && [[ $its_sources == "$sources" ]] || return 1
  know_kit
  [[ ! $kit || $its_kit == "$kit" ]]
}

# ROOM [PART..]: copies into it, as a repository of its own, the crates that the program is built from. Of each it copies what decides
# the program, and these further parts.
copy_needed() {
  local name part
  read_needed
  for name in "${needed[@]}"; do
    mkdir -p "$1/crates/$name" || return 1
    for part in src specs proofs stdin stdout args status data "${@:2}"; do
      [[ ! -e $here/crates/$name/$part ]] || cp -r -- "$here/crates/$name/$part" "$1/crates/$name/" || return 1
    done
  done
  printf '%s' "$listed" >"$1/crates.txt" && cp -- "$here/HANDLES" "$1/"
}

# The crates that most others wait for, each behind those that it waits for itself.
first=callbox
second=connection

# ROOM: proves the copy in ROOM and builds its program, by `rt ci`, which has as many crates at work as there are processors, and keeps
# each that passes. A line for each crate goes to standard error, and what the last `rt ci` said to ROOM/log.
#
# A proof keeps the processors that it began with. So those that most crates wait for come first, with nothing beside them but, at a
# lower priority, the crates that don't wait for them.
prove_copy() {
  local room=$1 name others said='s/^rt: \([a-z0-9_]* proved\)$/\1/p'
  read -ra others < <(python3 -B "$here/checks/lib/beside.py" "$room/copy" "$first")
  if [[ ${others[*]} ]]; then
    (cd -- "$room/copy" && nice -n 10 rt ci "${others[@]}" 2>&1 | sed -un "$said" >&2) &
    for name in "$first" "$second"; do
      (set -o pipefail && cd -- "$room/copy" && rt ci "$name" 2>&1 | sed -un "$said" >&2) || break
    done
    wait "$!"
  fi
  (set -o pipefail && cd -- "$room/copy" && rt ci 2>&1 | tee "$room/log" | sed -un "$said" >&2)
}

# ROOM FOLDER: proves and builds the program on a copy in ROOM. Puts the program and what it was built from into FOLDER. A line for
# each crate goes to standard error, and all that rt said where it fails.
build_into() {
  local room=$1 folder=$2 start=$SECONDS
  know_kit
  if [[ ! $kit ]]; then
    echo "${0##*/}: there is no rt on the path: it is the command of the Rattle kit, in the folder bin of the kit" >&2
    return 1
  fi
  if ! copy_needed "$room/copy" || ! here=$room/copy built=$room seen=$room/seen digest_sources; then
    echo "${0##*/}: the sources could not be copied" >&2
    return 1
  fi
  if prove_copy "$room"; then
    mkdir -p "$folder" && rm -f -- "$folder/built-from" && cp -- "$room/copy/crates/interop/out/interop" "$folder/interop.new" &&
      mv -f -- "$folder/interop.new" "$folder/interop" && write_built_from "$folder/built-from" &&
      echo "built interop in $((SECONDS - start)) s" >&2 && return 0
  else
    cat -- "$room/log" >&2
  fi
  echo "${0##*/}: the build failed after $((SECONDS - start)) s" >&2
  return 1
}
