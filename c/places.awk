# Reads what `objdump -h -d -w --insn-width=16` tells of an object, and prints a script for `ld -r`
# by which each section of code begins so far past a multiple of 32 that few of its jumps cross one
# or end at one. Some processors decode such a jump anew at each turn of its loop, and an insert took
# 1.3 times as long for it. A jump in a loop counts as eight, and one in a loop of that as 64.

function number(text,   value, at) {
  value = 0
  for (at = 1; at <= length(text); at++)
    value = 16 * value + index("0123456789abcdef", substr(text, at, 1)) - 1
  return value
}

# What the jumps cost that lie badly where the section begins at this place.
function cost(place,   at, sum) {
  sum = 0
  for (at = 0; at < jumps; at++)
    if (int((from[at] + place) / 32) != int((behind[at] + place) / 32)) sum += weight[at]
  return sum
}

# Whether the code from an address on returns before it jumps. Then a jump back to it is no loop.
function returns(address,   at) {
  for (at = 0; at < jumps; at++) if (behind[at] > address) return kind[at] ~ /^ret/
}

function choose_place(   at, head, depth, place, least) {
  for (at = 0; at < jumps; at++) {
    depth = 0
    for (head in back)
      if (head + 0 <= from[at] && from[at] <= back[head] && !returns(head + 0)) depth++
    weight[at] = 8 ^ (depth < 3 ? depth : 3)
  }
  least = cost(places[section])
  for (place = 0; place < 32; place += 4)
    if (cost(place) < least) { least = cost(place); places[section] = place }
}

# The sections. Where no place is better, one begins at 20, which is as good as any other.
$1 ~ /^[0-9]+$/ && $2 ~ /^\.text\./ { names[count++] = $2; places[$2] = 20 }

/^Disassembly of section / {
  if (section in places) choose_place()
  section = substr($4, 1, length($4) - 1)
  jumps = 0; compared = ""
  for (head in back) delete back[head]
}

section in places && split($0, part, "\t") == 3 {
  gsub(/[ :]/, "", part[1])
  start = number(part[1]); size = split(part[2], bytes, " ")
  split(part[3], word, " ")
  if (word[1] ~ /^(j|call|ret)/) {
    # A comparison and the jump behind it are one for a processor.
    from[jumps] = word[1] ~ /^j/ && compared != "" ? compared : start
    kind[jumps] = word[1]; behind[jumps++] = start + size
    if (word[1] ~ /^j/ && word[2] ~ /^[0-9a-f]+$/ && number(word[2]) <= start)
      back[number(word[2])] = start
  }
  compared = word[1] ~ /^(cmp|test|add|sub|and|inc|dec)/ ? start : ""
}

END {
  if (section in places) choose_place()
  print "SECTIONS {"
  for (at = 0; at < count; at++)
    printf "\"%s\" 0 : { . = . + %d; *(\"%s\") }\n", names[at], places[names[at]], names[at]
  print "}"
}
