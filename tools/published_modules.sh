#!/bin/bash
# Reads published ASN.1 modules, and converts values of their types.
#
# usage: tools/published_modules.sh [-u | -w] [FOLDER]
#
# The program is $ASN, or else ./asn. The modules are those of Debian's source packages asn1c (UMTS
# RRC, and its parser's tests), libtasn1-6 (PKIX) and heimdal (Kerberos, X.509, CMS and others). They
# are fetched into FOLDER, or into a new one, by `apt-get source`, which takes deb-src among apt's
# sources; what is there already isn't fetched again. None of them is part of this repository.
#
# Of each file it prints how many types are read, or why it is refused. Of RRC, PKIX and Heimdal it
# prints the types that lead to nothing that is read. Of each other type, tools/module_values.py
# makes ten random values. They are converted from JSON to JSON and to value notation, and what is
# written is converted again, to both: the JSON has to be what was made, and each text has to come
# out again as it was. Then it prints the time and the memory that RRC takes: it is to be read in 0.3
# seconds of processor time, and values of its largest type are to be converted in 64 MB. The last
# lines have the counts. The status is 1 where one of them isn't as it is expected, and 2 where a
# package can't be had. -u is for a program that isn't proved, which is slow and takes much memory:
# one value is made of each type, and neither time nor memory counts. -w takes the protocols of
# Debian's source package wireshark in place of these, each of which is a folder of modules. Its
# copies of RRC have a type with a parameter, SetupRelease, written out wherever 3GPP names it: it is
# put back, and each value has to be the same text by both.
set -u
count=10 wide=
[ "${1-}" = -u ] && count=1 && shift
[ "${1-}" = -w ] && wide=1 && shift
tools=$(dirname -- "$(readlink -f -- "$0")")
asn=$(readlink -f -- "${ASN:-$tools/../asn}")
folder=${1:-$(mktemp -d)}
mkdir -p "$folder" && cd "$folder" || exit 2
room=$(mktemp -d)
trap 'rm -rf "$room"' EXIT

# Fetches the sources of a package, unless they are there. apt-get may lack Debian's own part of
# them, which isn't used.
fetch() {
    ls -d "$1"-*/ >/dev/null 2>&1 && return
    apt-get source --download-only "$2" >"$room/fetched" 2>&1
    for archive in "$2"_*.orig.tar.[bgx]z*; do
        [ "${archive%.asc}" = "$archive" ] || continue
        tar xf "$archive" 2>/dev/null || {
            tail -n 2 "$room/fetched"
            echo "can't be had: the source package $2 (is deb-src switched on, and apt-get update done?)"
            exit 2
        }
    done
}

# Prints what is said of the file, and returns whether it is read.
check() {
    "$asn" check "$1" >"$room/out" 2>"$room/err"
    local status=$?
    case $status in
        0) echo "$1: $(head -n 1 "$room/out"), $(grep -c ': no value of it is read$' "$room/out") parts without values" ;;
        1) grep -F "$1:" "$room/err" | head -n 1 ;;
        *) echo "$1: status $status: $(tail -n 1 "$room/err")" ;;
    esac
    return $status
}

# Converts lines of values of the type Trials.Trial.
convert() {
    "$asn" convert "${modules[@]}" -t Trials.Trial --lines --from "$1" --to "$2" "$room/$3" >"$room/$4" 2>"$room/err"
    local status=$?
    [ $status = 0 ] && return
    bad=$((bad + 1))
    echo "  from $1 to $2: status $status: $(grep -v '^asn: ' "$room/err" | head -n 3)"
}

# Whether the two texts are the same.
same() {
    cmp "$room/$1" "$room/$2" >"$room/err" && return
    bad=$((bad + 1))
    echo "  $3 isn't the same: $(cat "$room/err")"
}

# Leaves out the values with a part whose type has none that is read, and says how many these are.
leave_out() {
    "$asn" convert "${modules[@]}" -t Trials.Trial --lines --from jer --to jer "$room/made" >"$room/out" 2>"$room/err"
    sed -n "s|^$room/made:\([0-9]*\): .*: The type has no values that can be read\$|\1|p" "$room/err" >"$room/numbers"
    [ -s "$room/numbers" ] || return
    awk -v numbers="$room/numbers" 'BEGIN { while ((getline n <numbers) > 0) out[n] } !(NR in out)' "$room/made" >"$room/kept"
    mv "$room/kept" "$room/made"
    echo "  $(wc -l <"$room/numbers") values have a part whose type has none that is read"
}

# Converts random values of the types of these files, which are read together.
values() {
    python3 "$tools/module_values.py" --count $count --trials "$room/trials.asn" "$@" >"$room/made" 2>"$room/unmade"
    sed 's/^/  /' "$room/unmade"
    local file
    modules=(-m "$room/trials.asn")
    for file; do
        modules+=(-m "$file")
    done
    [ -z "$wide" ] || leave_out
    convert jer jer made json
    convert jer avn made notation
    convert jer jer json json-json
    convert avn jer notation notation-json
    convert avn avn notation notation-notation
    python3 "$tools/module_values.py" --compare "$room/made" "$room/json" || bad=$((bad + 1))
    same json json-json "JSON, read again,"
    same json notation-json "JSON from value notation"
    same notation notation-notation "value notation, read again,"
    made=$((made + $(wc -l <"$room/made")))
}

# Prints what is said of the files, lists those that are read, and counts them.
group() {
    local name=$1 file
    shift
    read=()
    for file; do
        check "$file" && read+=("$file")
    done
    echo "$name: ${#read[@]} of $# files are read"
}

# Prints the processor time and the memory that a command takes, and whether that is within so many
# seconds and MB.
measure() {
    python3 -c '
import os, subprocess, sys
child = subprocess.Popen(sys.argv[3:], stdout=subprocess.DEVNULL, stderr=subprocess.DEVNULL)
_, status, used = os.wait4(child.pid, 0)
child.returncode = os.waitstatus_to_exitcode(status)
seconds, memory = used.ru_utime + used.ru_stime, used.ru_maxrss / 1024
print(f"  status {child.returncode}, {seconds:.2f} s of processor time, {memory:.0f} MB, "
      f"of at most {sys.argv[1]} s and {sys.argv[2]} MB")
sys.exit(child.returncode or seconds > float(sys.argv[1]) or memory > float(sys.argv[2]))
' "$@" || [ $count = 1 ] || bad=$((bad + 1))
}

# Puts the type SetupRelease back where its copy is written out, and compares the value notation of
# the values that were made by the files as they are.
restored() {
    local file
    modules=(-m "$room/trials.asn")
    for file; do
        sed -E -e '/^-- SetupRelease \{/,/^-- \}/s/^-- //' "$file" >"$room/${file##*/}"
        grep -q '^SetupRelease {' "$room/${file##*/}" &&
            sed -i -E 's/CHOICE *\{ *release +NULL *, *setup +([A-Za-z0-9-]+) *\}/SetupRelease { \1 }/' "$room/${file##*/}"
        modules+=(-m "$room/${file##*/}")
    done
    echo "  SetupRelease stands in $(cat "$room"/*.asn | grep -c 'SetupRelease { ') places"
    convert jer avn made again
    same notation again "value notation by SetupRelease"
    rm -f "$room"/*.asn
}

# Puts copies in the place of the files where these comment out an assignment that one of them
# imports, and has that assignment again: X.680 has no import of what the other module lacks.
mended() {
    local at file
    grep -qE '^--( SetupRelease \{|directoryUnbind )' "${files[@]}" || return
    rm -rf "$room/mended" && mkdir "$room/mended"
    for at in "${!files[@]}"; do
        file=$room/mended/${files[at]##*/}
        sed -E -e '/^-- SetupRelease \{/,/^-- \}/s/^-- //' -e 's/^--(directoryUnbind )/\1/' "${files[at]}" >"$file"
        files[at]=$file
    done
}

# Prints what is said of each protocol of Wireshark, and converts values of those that are read.
protocols() {
    local folder all=0 whole=0 types=0
    for folder in wireshark-*/epan/dissectors/asn1/*/; do
        files=("$folder"*.asn*)
        [ -e "${files[0]}" ] || continue
        mended
        all=$((all + 1))
        if "$asn" check "${files[@]}" >"$room/out" 2>"$room/err"; then
            echo "$folder: $(head -n 1 "$room/out"), $(grep -c ': no value of it is read$' "$room/out") parts without values"
            whole=$((whole + 1))
            types=$((types + $(head -n 1 "$room/out" | cut -d' ' -f1)))
            values "${files[@]}"
            grep -q '^SetupRelease {' "${files[@]}" && restored "${files[@]}"
        else
            echo "$folder: $(head -n 1 "$room/err")"
        fi
    done
    echo "$whole of $all protocols are read whole, with $types types; $made values; $bad faults"
    [ "$bad" = 0 ] && [ "$made" -gt 0 ]
}

made=0 bad=0
if [ -n "$wide" ]; then
    fetch wireshark wireshark
    protocols
    exit
fi
fetch asn1c asn1c
fetch libtasn1 libtasn1-6
fetch heimdal heimdal

# The last of these isn't valid as it is published: it assigns id-at-name and X520name twice. A copy
# without the second assignments is read.
twice=$(ls libtasn1-*/tests/pkix.asn) once=$room/pkix.asn
awk '!/^(id-at-name|X520name)[ \t]/ || !seen[$1]++' "$twice" >"$once"
check "$twice"
[ $? = 1 ] || bad=$((bad + 1))
group PKIX libtasn1-*/examples/*.asn "$once"
pkix=${#read[@]}
values libtasn1-*/examples/*.asn
values "$once"
group Heimdal heimdal-*/lib/*/*.asn1 heimdal-*/lib/*/*/*.asn1
heimdal=${#read[@]}
# Two of these have modules of one name, and so aren't read together.
others=()
for file in "${read[@]}"; do
    [ "${file##*/}" = crmf.asn1 ] || others+=("$file")
done
values "${others[@]}"
values heimdal-*/lib/hx509/crmf.asn1 heimdal-*/lib/asn1/rfc2459.asn1

for file in libtasn1-*/tests/*.asn asn1c-*/skeletons/*/*.asn1 asn1c-*/tests/*-NP.asn1 asn1c-*/tests/*-SW.asn1; do
    check "$file"
done
# Of asn1c's tests, those named OK are modules, and those named SE break a rule: these seventeen one
# that means nothing for a text, or isn't asked of types with parameters.
ok=0 se=0
for file in asn1c-*/tests/*-OK.asn1; do
    check "$file" && ok=$((ok + 1))
done
for file in asn1c-*/tests/*-SE.asn1; do
    check "$file"
    refused=$?
    number=${file##*/}
    case ${number%%-*} in
        09 | 26 | 27 | 28 | 36 | 40 | 51 | 52 | 53 | 54 | 61 | 63 | 71 | 78 | 101 | 102 | 111) expected=0 ;;
        *) expected=1 se=$((se + refused)) ;;
    esac
    [ $refused = $expected ] || {
        bad=$((bad + 1))
        echo "  expected status $expected"
    }
done

group RRC asn1c-*/examples/*.asn1
rrc=${#read[@]}
values "${read[@]}"
file=$(ls asn1c-*/examples/rrc-7.1.0.asn1)
python3 "$tools/module_values.py" --only DL-DCCH-Message --count $((count * 100)) "$file" >"$room/values"
echo "RRC, $(wc -c <"$file") bytes, is read"
measure 0.3 64 "$asn" check "$file"
echo "$(wc -c <"$room/values") bytes of values of DL-DCCH-Message are converted from JSON to value notation"
measure 60 64 "$asn" convert -m "$file" -t DL-DCCH-Message --lines --from jer --to avn "$room/values"
echo "RRC $rrc, PKIX $pkix, Heimdal $heimdal files read; tests OK $ok read, SE $se refused; $made values; $bad faults"
echo "expected: RRC 1, PKIX 3, Heimdal 18 files read; tests OK 93 or more read, SE 17 refused; 0 faults"
[ "$rrc $pkix $heimdal $se $bad" = "1 3 18 17 0" ] && [ "$ok" -ge 93 ] && [ "$made" -gt 0 ]
