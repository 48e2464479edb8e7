#!/bin/bash
# Shows in a terminal how far a stream of messages is, and takes a picture of it.
#
# usage: tools/at_terminal.sh [-u] PICTURE [MESSAGES]
#
# It converts MESSAGES messages (1,000,000 unless given) by ./asn, or by the program $ASN as ./asn would
# call it, in a terminal of tmux. What the terminal shows is printed each time that it changes. The picture, a PNG, is of what it shows last
# before the end. The status is 1 where it shows anything but the command and one line on how far it
# is, whose numbers rise, and 2 where tmux or ImageMagick isn't there (apt-get install tmux
# imagemagick). -u is for a program that isn't proved, which says so on a line of its own.
set -u
top=$(dirname -- "$(dirname -- "$(readlink -f -- "$0")")")
said=0
[ "${1-}" = -u ] && said=1 && shift
[ "${ASN-}" ] && ASN=$(readlink -f -- "$ASN")
picture=$(readlink -f -- "${1:?usage: tools/at_terminal.sh [-u] PICTURE [MESSAGES]}")
count=${2:-1000000}
for name in tmux convert-im6.q16; do
    command -v $name >/dev/null || {
        echo "$name isn't there: apt-get install tmux imagemagick"
        exit 2
    }
done
room=$(mktemp -d)
terminal() { tmux -L "asn-$$" -f /dev/null "$@"; }
trap 'terminal kill-server 2>/dev/null; rm -rf "$room"' EXIT
cp "$top/examples/sensor.asn" "$room" && cd "$room" || exit 2
mkdir bin && ln -s "$top/asn" bin/asn
# The launcher asks for this at a terminal.
if [ "${ASN-}" ]; then
    rm bin/asn
    printf '#!/bin/sh\nshift\nexec "%s" convert --progress "$@"\n' "$ASN" >bin/asn
    chmod +x bin/asn
fi
python3 -c '
import sys
line = "{\"readings\":[{\"temperature\":-31},{\"wind\":{\"speed\":%d}}],\"station\":7,\"taken\":\"20261130081500Z\"}\n"
sys.stdout.writelines(line % (number % 97) for number in range(int(sys.argv[1])))
' "$count" >messages.jsonl

terminal new-session -d -x 100 -y 12 "PATH='$room/bin:$PATH' PS1='\$ ' exec bash --norc --noprofile"
until terminal capture-pane -p | grep -q '^\$'; do sleep 0.1; done
words='convert -m sensor.asn -t Report --from jer --to jer --lines messages.jsonl > converted.jsonl'
terminal send-keys "asn $words" Enter
shown=0 wrong=0 before=0
while :; do
    sleep 0.2
    terminal capture-pane -p | sed -e 's/ *$//' -e '/^$/d' >now
    [ "$(tail -n 1 now)" = '$' ] && [ "$(wc -l <now)" -gt 1 ] && break
    cmp -s now last && continue
    cp now last
    cat now
    echo
    lines=$(sed -n 's/^asn: \([0-9]*\) lines, 0 refused, [0-9]*\/s$/\1/p' now)
    [ "$lines" ] || continue
    shown=$((shown + 1))
    # A shell that has no space left in the last column shows the command on two lines.
    others=$(grep -cv -e '^asn: [0-9]* lines, 0 refused, [0-9]*/s$' -e "isn't proved yet" -e '^\$ asn' now)
    [ "$others" -le $((2 * said)) ] && [ "$(wc -w <<<"$lines")" = 1 ] && [ "$lines" -ge "$before" ] || wrong=1
    before=$lines
done
cat now
convert-im6.q16 -background black -fill white -font DejaVu-Sans-Mono -pointsize 14 \
    "label:$(cat last)" -bordercolor black -border 8 "$picture"
[ "$(wc -l <converted.jsonl)" = "$count" ] || wrong=1
echo "$count messages: it was shown $shown times how far they are; $wrong faults"
[ $wrong = 0 ] && [ "$shown" -gt 0 ]
