# Read by the scripts beside it, from the root of the repository and with $tool
# set: the names of the samples, the text of each and its bundle.
texts=$(cd samples && ls *.layout | sed 's/\.layout$//')
names="$texts damaged-short damaged-trailing"

text() {
  case $1 in
    damaged-*) echo samples/winch.layout ;;
    *) echo "samples/$1.layout" ;;
  esac
}

# chains NAME FILE OPTION..: each pair of names in samples/NAME.chain, on a line that starts with $, and what is said about the chain
# from the one to the other in FILE.
chains() {
  asked=samples/$1.chain
  shift
  between=
  sed -n 's/^\$ //p' "$asked" | while read -r from to; do
    printf '%s$ %s %s\n' "$between" "$from" "$to"
    "$tool" chain "$1" "$from" "$to" ${2+"$2" "$3"} || echo "exit code $?"
    between='
'
  done
}

# The damaged ones are winch.layout cut off after 100 bytes, and with one byte more.
bundle() {
  case $1 in
    damaged-short) "$tool" assemble samples/winch.layout | head -c 100 ;;
    damaged-trailing) "$tool" assemble samples/winch.layout && printf '\0' ;;
    *) "$tool" assemble "$(text $1)" 2> /dev/null ;;
  esac
}
