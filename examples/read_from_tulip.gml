graph [
node [
id 0
label "A"
graphics [
x 1.5
y -2.25
z 0
w 1
h 1
d 1
fill "#ff0000"
]
]
node [
id 1
label "B"
graphics [
x -.5
y 3.
z 0
w 1
h 1
d 1
fill "#00ff00"
]
]
edge [
id 0
source 0
target 1
label ""
graphics [
type "line"
width 1
fill "#000000"
Line [
point [ x 0 y 0 z 0 ]
point [ x 1.25E+1 y 2 z 0 ]
]
]
]
]
