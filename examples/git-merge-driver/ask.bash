# shellcheck shell=bash
# How the scripts for git ask hpr: in the folder $work, which they make for it and which goes at their end. There each
# version of a program is a file with the version's name, so that messages have this name. Read by those scripts, never run.
#
# HPR names the command hpr; else it is the one two folders up. HPR_BUILD=never tells it not to prove and build itself now.
hpr=${HPR:-$(dirname "$(realpath "${BASH_SOURCE[0]}")")/../../hpr}
case $hpr in */*) hpr=$(realpath -m -- "$hpr") ;; esac
work=${work:-}
trap 'rm -rf -- "$work"' EXIT
# names are bytes: where they are letters, `read` takes the zero behind one that ends within a letter for a part of it
LC_ALL=C

# Calls hpr there. What it prints goes to the file `printed`, and what it says on standard error to `said`. A status 0 or 1
# without the text that belongs to it doesn't come from hpr, and 127 stands for it.
ask() {
  local status
  (cd "$work" && HPR_BUILD=never exec "$hpr" "$@") >"$work/printed" 2>"$work/said" </dev/null
  status=$?
  case $status in
    0) is_answer "$1" || status=127 ;;
    1) grep -q '^interference ' "$work/printed" || status=127 ;;
  esac
  return "$status"
}

# Whether what is printed looks like what this command of hpr prints with status 0.
is_answer() {
  case $1 in
    integrate) head -n 1 -- "$work/printed" | grep -qx program && tail -n 1 -- "$work/printed" | grep -q '^end(.*)$' ;;
    verify) echo verified | cmp -s - "$work/printed" ;;
    *) head -n 1 -- "$work/printed" | grep -q '^vertices ' ;;
  esac
}

# Calls `hpr integrate` with as many tries as git's settings say.
integrate() {
  tries=$(git config --get hpr.tries)
  ask integrate "$@" ${tries:+--tries "$tries"}
}

# A base that isn't there, or is empty, is the program without parts.
fill_base() {
  [ -s "$work/base" ] || echo 'program end()' >"$work/base"
}

# What a status of hpr other than 0 means, in a sentence.
meaning() {
  local version why
  case $1 in
    1) echo "they interfere" ;;
    2) echo "no program has the merged graph" ;;
    3) echo "the tries are spent, and git config hpr.tries allows more" ;;
    4)
      IFS=: read -r _ version why <"$work/said"
      echo "hpr takes no such program as ${version# }:$why"
      ;;
    7) echo "git config hpr.tries is ${tries:-not set}, and that is no number of tries" ;;
    8) echo "memory ran out" ;;
    70) echo "hpr isn't built" ;;
    126 | 127) echo "hpr can't be run" ;;
    *) echo "hpr ended with status $1" ;;
  esac
}

# All that hpr tells with this status beside its meaning.
details() {
  case $1 in
    4) ;;
    1 | 2 | 3 | 10) cat "$work/printed" ;;
    *) cat "$work/said" ;;
  esac
}

# Copies what stands at a path to `folder`, a new one in git's hpr-kept, which is made for the first. With `by_links` a file gets a
# second name where it can, which is quick; git takes away the first before it writes it anew.
folder=''
copy_aside() {
  local kept copy
  if [ -z "$folder" ]; then
    kept=$(git rev-parse --git-common-dir)/hpr-kept
    { mkdir -p -- "$kept" && folder=$(mktemp -d -- "$kept/XXXXXX"); } || return
  fi
  copy=$folder/$1
  mkdir -p -- "${copy%/*}" || return
  if [ -n "${by_links-}" ]; then
    if cp -al -- "$1" "$copy"; then return; fi
    rm -rf -- "$copy"
  fi
  cp -a -- "$1" "$copy"
}

# Keeps what `git merge --autostash` has taken away: git brings it back at the end, and forgets it where it is stopped before.
keep_autostash() {
  local edits
  edits=$(git rev-parse -q --verify MERGE_AUTOSTASH) && git update-ref --create-reflog -m autostash refs/hpr-kept "$edits"
}

# A path in one line.
in_a_line() {
  case $1 in *[[:cntrl:]]*) printf '%q' "$1" ;; *) printf '%s' "$1" ;; esac
}
