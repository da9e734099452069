# For the other scripts to read: what crates.txt says, which crates are proved as they stand, and copies of crates. Expects `root`.

# The names of all crates, in the order of crates.txt. A line is `NAME: DEP ..`, or `NAME staticlib: DEP ..`.
all_crates() { sed -n 's/^\([a-z0-9_]*\)\( [^:#]*\)\{0,1\}:.*/\1/p' "$root/crates.txt"; }

# These crates and all that they need, in the order of crates.txt.
needed() { # CRATE...
  awk -F: -v wanted="$*" '
    { sub(/#.*/, "") }
    NF > 1 { split($1, words, " "); name[++count] = words[1]; deps[words[1]] = $2 }
    END {
      left = split(wanted, todo, " ")
      while (left > 0) {
        crate = todo[left--]
        if (crate in taken) continue
        taken[crate]
        n = split(deps[crate], below, " ")
        # What has no line is the toolchain'"'"'s.
        for (i = 1; i <= n; i++) if (below[i] in deps) todo[++left] = below[i]
      }
      for (i = 1; i <= count; i++) if (name[i] in taken) print name[i]
    }' "$root/crates.txt"
}

# Is anything of these crates newer than a file? What is built there, and must-fail edits, are no part of what is proved.
newer() { # FILE CRATE...
  [ -n "$(cd "$root/crates" && find "${@:2}" -mindepth 1 -regex '[^/]*/\(out\|must-fail\)' -prune -o -newer "$1" -print -quit)" ]
}

# Those of these crates, lowest first, that are not proved as they stand, or need one that is not. Each that is proved has a stamp.
unproved() { # CRATE...
  local crate dep stamp stale found=" "
  for crate; do
    stamp=$root/target/stamp/$crate stale=no
    if [ ! -f "$stamp" ] || newer "$stamp" $(needed "$crate"); then stale=yes; fi
    for dep in $(needed "$crate"); do
      case $found in *" $dep "*) stale=yes ;; esac
    done
    if [ $stale = yes ]; then found="$found$crate "; fi
  done
  echo $found
}

# Copies crates and their lines of crates.txt to a folder, without what is built there and without must-fail edits; all keep their times.
copy_crates() { # FOLDER CRATE...
  local to=$1 crate part; shift
  for crate; do
    mkdir -p "$to/crates/$crate"
    for part in "$root/crates/$crate"/*; do
      case ${part##*/} in
        out | must-fail) ;;
        *) cp -rp "$part" "$to/crates/$crate" ;;
      esac
    done
    grep -E "^$crate( [^:#]*)?:" "$root/crates.txt" >>"$to/crates.txt"
  done
}

# Copies to such a folder the libraries that are built of all that these crates need, and what was proved of these: neither is made anew.
copy_built() { # FOLDER CRATE...
  local to=$1 crate; shift
  for crate in $(needed "$@"); do copy_out "$to" "$crate" rlib; done
  for crate; do copy_out "$to" "$crate" incremental; done
}

copy_out() { # FOLDER CRATE PART
  if [ -d "$root/crates/$2/out/$3" ]; then
    mkdir -p "$1/crates/$2/out"
    cp -rp "$root/crates/$2/out/$3" "$1/crates/$2/out"
  fi
}
