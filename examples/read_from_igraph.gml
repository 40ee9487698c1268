Creator "igraph version 0.10.13 Thu Nov 26 18:00:00 2026"
Version 1
graph
[
  directed 0
  node
  [
    id 10
    name "Alice"
  ]
  node
  [
    id 11
    name "Bob &amp; Eve"
  ]
  node
  [
    id 12
    name "Carol"
  ]
  edge
  [
    source 11
    target 10
    weight 1.5
  ]
  edge
  [
    source 12
    target 11
    weight NaN
  ]
]
