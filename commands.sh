# shellcheck shell=bash disable=SC2034,SC2154
# What ./trips says of words before the program has them: help, and what is wrong with them. It is read by ./trips,
# and goes by the table commands.txt. It judges words as the program does: `bench/launcher --against` compares them.

# The most bytes of a text of C: after a file that is no longer it is certain that the input is read too.
most_source=262144

# --- the table ---

declare -A takes=() does=() least=() most=() choices=() options=() belongs=()
commands=() all_options=() calls=()

# Reads commands.txt. What is said of a name stands below its line, from the third column.
read_table() {
  local line kind name rest option
  while IFS= read -r line; do
    case $line in "#"*) continue ;; "  "*) does[$name]=${line#  } && continue ;; esac
    read -r kind name rest <<<"$line"
    case $kind in
      command)
        commands+=("$name") takes[$name]=${rest%% --*} options[$name]=
        case $rest in *" --"*) options[$name]=--${rest#* --} ;; esac
        for option in ${options[$name]}; do belongs[$name $option]=y; done
        ;;
      option) all_options+=("$name") takes[$name]=$rest ;;
      range) least[$name]=${rest% *} most[$name]=${rest#* } ;;
      words) choices[$name]=$rest ;;
      call) calls+=("$name") takes[$name]=$rest ;;
    esac
  done <"$here/commands.txt"
}

# Whether a word is a command of the program.
is_command() {
  [ -n "$1" ] && [ -n "${options[$1]+y}" ]
}

# --- the nearest word ---

# How many letters must be changed, put in, left out or exchanged with the next, to make one word of another: `apart`.
distance() {
  local a=$1 b=$2 i j cost best
  local -A d=()
  for ((i = 0; i <= ${#a}; i++)); do d[$i,0]=$i; done
  for ((j = 0; j <= ${#b}; j++)); do d[0,$j]=$j; done
  for ((i = 1; i <= ${#a}; i++)); do
    for ((j = 1; j <= ${#b}; j++)); do
      cost=1
      [ "${a:i-1:1}" != "${b:j-1:1}" ] || cost=0
      best=$((d[$((i - 1)),$((j - 1))] + cost))
      ((d[$((i - 1)),$j] + 1 >= best)) || best=$((d[$((i - 1)),$j] + 1))
      ((d[$i,$((j - 1))] + 1 >= best)) || best=$((d[$i,$((j - 1))] + 1))
      if ((i > 1 && j > 1)) && [ "${a:i-1:1}${a:i-2:1}" = "${b:j-2:1}${b:j-1:1}" ]; then
        ((d[$((i - 2)),$((j - 2))] + 1 >= best)) || best=$((d[$((i - 2)),$((j - 2))] + 1))
      fi
      d[$i,$j]=$best
    done
  done
  apart=${d[${#a},${#b}]}
}

# Which of the other words is nearest to the first, as `; the nearest is WORD`, or nothing where none is near: `near`.
nearest() {
  local word=${1:0:20} other least_apart=99 found=
  shift
  near=
  for other in "$@"; do
    distance "$word" "$other"
    case $other in "$word"?*) [ ${#word} -lt 3 ] || apart=1 ;; esac
    [ "$apart" -ge "$least_apart" ] || { least_apart=$apart found=$other; }
  done
  [ "$least_apart" -gt 3 ] || [ "$least_apart" -ge ${#word} ] || near="; the nearest is $found"
}

# --- help ---

# A number with its digits in groups of three.
grouped() {
  local left=$1 out=
  while [ ${#left} -gt 3 ]; do out=,${left: -3}$out left=${left%???}; done
  printf '%s' "$left$out"
}

# The commands, the options and what ./trips does itself.
help_all() {
  local name
  echo "trips compiles and runs C on the block-atomic TRIPS processor."
  echo
  for name in "${commands[@]}"; do printf '  %s %-8s%-12s%s\n' "$me" "$name" "${takes[$name]}" "${does[$name]}"; done
  echo
  for name in "${all_options[@]}"; do printf '  %-14s%s\n' "$name ${takes[$name]}" "${does[$name]}"; done
  echo
  for name in "${calls[@]}"; do
    case $me$name in trips--[pi]*) continue ;; esac
    printf '  %s %-16s%s\n' "$me" "$name ${takes[$name]}" "${does[$name]}"
  done
  echo
  case $me in
    trips) echo "man $here/docs/trips.1 has reports and statuses." ;;
    *) echo "man $here/docs/trips.1 has reports and statuses, examples/README.md programs to run first." ;;
  esac
}

# The name under which the range of a command's number stands: `of`.
range_of() {
  of=$1/$2
  [ -n "${most[$of]+y}" ] || of=$2
}

# A command and its options, with the ranges of their numbers.
help_command() {
  local name of range
  printf '  %s %-8s%-12s%s\n' "$me" "$1" "${takes[$1]}" "${does[$1]}"
  for name in ${options[$1]}; do
    range_of "$1" "$name"
    range=${most[$of]:+ (from ${least[$of]} to $(grouped "${most[$of]}"))}
    printf '    %-14s%s%s\n' "$name ${takes[$name]}" "${does[$name]}" "$range"
  done
}

# Help of all, or of the command that a word names.
help() {
  if [ $# -eq 0 ]; then
    help_all
  elif is_command "$1"; then
    help_command "$1"
  else
    nearest "$1" "${commands[@]}"
    say "no command is called $(shown "$1")${near:-; there are ${commands[*]}}"
    return 2
  fi
}

# --- what is wrong with words ---

# The article before a place's name.
article() {
  case $1 in [AEIOU]* | F[0-9]) echo an ;; *) echo a ;; esac
}

# What the words say: values under the names of options, words that stand alone under their places, counted from 1; the
# command; what is wrong; and whether JSON is asked for.
declare -A said=()
command='' fault='' near='' apart=0 json=''

# A word as it can be typed, where it has bytes that a terminal would not show.
shown() {
  case $1 in
    "" | *[!\ -~]*) printf '%q' "$1" ;;
    *) printf '%s' "$1" ;;
  esac
}

# Notes what is wrong, and fails.
wrong() {
  fault=$*
  return 1
}

# A number of digits alone, from the least to the most of what a name takes.
is_within() {
  local digits=${1##+(0)} top=${most[$2]}
  case $1 in "" | *[!0-9]*) return 1 ;; esac
  [ "${least[$2]}" = 0 ] || [ -n "$digits" ] || return 1
  [ ${#digits} -lt ${#top} ] || { [ ${#digits} -eq ${#top} ] && [[ ! $digits > $top ]]; }
}

# Judges the number that is said of a name.
judge_number() {
  local of
  range_of "$command" "$2"
  is_within "$1" "$of" ||
    wrong "$2 takes a number from ${least[$of]} to $(grouped "${most[$of]}"), and not $(shown "$1")"
}

# Judges the two numbers that are said of a name, the first of which is not above the second.
judge_cycles() {
  local first=${1%%-*} last=${1#*-}
  if [[ $1 != *-* ]] || ! is_within "$first" "$2" || ! is_within "$last" "$2" || ((10#$first > 10#$last)); then
    wrong "$2 takes two numbers, as 1-100, from ${least[$2]} to $(grouped "${most[$2]}"), and not $(shown "$1")"
  fi
}

# Judges the word that is said of a name.
judge_word() {
  case " ${choices[$2]} " in
    *" $1 "*) [[ $1 != *" "* && -n $1 ]] && return ;;
  esac
  wrong "$2 takes one of ${choices[$2]}, and not $(shown "$1")"
}

# Notes a value under a name, once.
note() {
  if [ -z "${said[$1]+y}" ]; then
    said[$1]=$2
  else
    wrong "$1 is said twice"
  fi
}

# Notes a word that stands alone, for the first place of the command that is left.
note_alone() {
  local place number=0
  for place in ${takes[$command]}; do
    number=$((number + 1))
    [ -n "${said[$number]+y}" ] || { said[$number]=$1 && return; }
  done
  case ${takes[$command]} in
    *" "*) wrong "$command takes $place as its last word, and not $(shown "$1") besides" ;;
    *) wrong "$command takes one $place, and not both $(shown "${said[1]}") and $(shown "$1")" ;;
  esac
}

# Reads a word that begins with a dash and is not a dash alone: an option of the command.
read_option() {
  local name=${1%%=*} own
  read -ra own <<<"${options[$command]}"
  if [ -z "${belongs[$command $name]+y}" ]; then
    nearest "$name" "${own[@]}"
    [ ! -f "$1" ] || near="; the file of this name is ./$(shown "$1")"
    wrong "$command has no option $(shown "$name")${near:-${own[*]:+; there are ${own[*]}}}"
  elif [ -n "${takes[$name]}" ] && [ "$name" = "$1" ]; then
    waits=$name
  elif [ -n "${takes[$name]}" ]; then
    note "$name" "${1#*=}"
  elif [ "$name" = "$1" ]; then
    note "$name" true
  else
    wrong "$name takes no value"
  fi
}

# Reads the words behind a command, as docs/trips.1 says.
read_words() {
  local word waits='' behind=''
  for word in "$@"; do
    case ${behind:-${waits:+waits}}/$word in
      behind/*) note_alone "$word" ;;
      waits/-?*) wrong "$waits wants a value before $(shown "$word")" ;;
      waits/*) note "$waits" "$word" && waits= ;;
      /--) behind=behind ;;
      /-?*) read_option "$word" ;;
      /*) note_alone "$word" ;;
    esac || return
  done
  [ -z "$waits" ] || wrong "$waits wants a value"
}

# Whether what was said of the command makes a request: it has its files, and its numbers are within their ranges.
judge_said() {
  local name number=0
  for name in ${takes[$command]}; do
    number=$((number + 1))
    [ -n "${said[$number]+y}" ] || wrong "$command wants $(article "$name") $name" || return
  done
  [ "${takes[$command]}" != N ] || judge_number "${said[1]}" "$command" || return
  [ "$command" != save ] || judge_number "${said[2]}" AT || return
  [ "$command" != draw ] || judge_number "${said[2]}" BLOCK || return
  for name in "${!said[@]}"; do
    [ "${takes[$name]-}" != N ] || judge_number "${said[$name]}" "$name" || return
    [ "${takes[$name]-}" != A-B ] || judge_cycles "${said[$name]}" "$name" || return
    [ -z "${choices[$name]-}" ] || judge_word "${said[$name]}" "$name" || return
  done
  [ "${said[--events]+y}${said[--stats]+y}" != yy ] || wrong "--events and --stats are of two runs" || return
  [ "${said[--predictor]-}" != none ] || [ "${said[--frames]-1}" -eq 1 ] || wrong "--predictor none is of one frame" || return
  for name in --place --unroll; do
    case $command${said[$name]+y}${said[1]} in
      runy*.img | runy*.tasl | compiley*.img | compiley*.tasl | drawy*.img | drawy*.tasl) wrong "$name is said of C alone" || return ;;
    esac
  done
  for name in --input --steps --trap; do
    case $command${said[$name]+y}${said[1]} in
      explainy*.img | explainy*.tasl) wrong "$name is said of C alone" || return ;;
    esac
  done
  case $command/${said[1]} in
    record/*.img) ;;
    record/*) wrong "record wants an image, whose name ends in .img" ;;
  esac
}

# Takes the word that asks for JSON, which may stand anywhere, out of the words: `rest`, and whether it stands there:
# `json`.
take_json() {
  local word
  json='' rest=()
  for word in "$@"; do
    if [ "$word" = --json ]; then json=y; else rest+=("$word"); fi
  done
}

# Whether the words make a request.
judge() {
  local LC_ALL=C
  local -a rest
  take_json "$@"
  set -- ${rest[@]+"${rest[@]}"}
  case "$*" in
    *[!\ -~]*) printf '%s' "$*" | iconv -f UTF-8 -t UTF-8 >/dev/null 2>&1 || wrong "a word is not UTF-8" || return ;;
  esac
  [ $# -gt 0 ] || wrong "a command is wanted; $me help says which there are" || return
  command=$1
  if ! is_command "$command"; then
    nearest "$command" "${commands[@]}" "${calls[@]}"
    if [ -f "$command" ] || [[ $command == *.@(c|img|tasl) ]]; then
      near="; a file stands behind one: $me run $(shown "$command")"
    fi
    wrong "no command is called $(shown "$command")${near:-; there are ${commands[*]}}"
    return
  fi
  shift
  read_words "$@" && judge_said
}

# Whether a file can be read, as far as it can be told without opening it.
is_readable() {
  local more=
  if [ "$1" = - ]; then
    return 0
  elif [ -d "$1" ]; then
    wrong "$(shown "$1"): a folder is no file"
  elif [ -r "$1" ]; then
    return 0
  elif [ -e "$1" ]; then
    wrong "$(shown "$1"): it may not be read"
  else
    [[ $command/$1 != explain/[1-9].[0-9]* ]] || more=", and no fault has this number"
    wrong "$(shown "$1"): there is no such file$more"
  fi
}

# Whether the files of a request can be read. The input is not looked at where the file may be refused for its length.
judge_files() {
  [ "$command" != bench ] || return 0
  is_readable "${said[1]}" || return
  [ -n "${said[--input]+y}" ] && [ "${said[1]}" != - ] && [ -f "${said[1]}" ] || return 0
  [ "$(stat -L -c %s -- "${said[1]}")" -gt "$most_source" ] || is_readable "${said[--input]}"
}
