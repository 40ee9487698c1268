Creator "spqr"
graph [
  directed 0
  node [
    id 0
    label "say &quot;A&quot;"
  ]
  node [
    id +1
    label ""
    graphics [
      x 1.50
      y -NAN
    ]
  ]
  edge [
    target 1
    source 0
    points [
    ]
  ]
]
