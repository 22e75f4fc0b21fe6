"""The scripts whose logs the captures are made of."""

PLAY = """device pc computer 3 400
device cam camcorder 1 100
device snoop relay 2 400
device left deck 2 100
device right deck 1 100
cable pc.0 cam.0
cable pc.1 snoop.0
cable snoop.1 left.0
cable left.1 right.0
wait 8000
%sconnect pc cam.0 right.0 any 8
settle 20
insert cam 7 525
command pc cam 0020C375
command pc cam 01FF30FFFFFFFFFF
cycles 16
reset right
cycles 2
settle 40
wait 8000
cycles 4
command pc cam 0020C460
break pc 0
settle 20
end
"""
READS = "".join("read pc cam %s\nread pc right %s\nsettle 4\n" % (at, at) for at in ("40C", "410", "900", "904"))
RIVALS = """device a deck 2 100
device b deck 2 100
device c deck 1 100
cable a.0 b.0
cable b.1 c.0
wait 8000
connect a a.0 b.0 any 0
step a 9
connect c c.0 b.0 any 0
settle 40
reset c
step a 5
wait 8001
settle 100
connect b b.0 c.0 any 8
settle 40
break a 0
settle 20
end
"""
LEAK = """device a deck 1 100
device b deck 1 100
cable a.0 b.0
wait 8000
connect a a.0 b.0 any 8
step a 6
die a
wait 8000
wait 8000
show b 904
end
"""
PLAY_WITH_READS = PLAY % READS
PLAY = PLAY % ""
