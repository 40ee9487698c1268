graph [
  version 2
  directed 0
  bb "0,0,126,180"
  node [
    id 1
    name "a"
    label "\N"
    graphics [
      x 27.0
      y 162.0
      w 54.0
      h 36.0
      type "oval"
    ]
  ]
  node [
    id 2
    name "b"
    graphics [ x 63.0 y 90.0 ]
  ]
  node [ id 3 name "c" graphics [ x 99. y 18 ] ]
  edge [
    id 1
    source 1
    target 2
    label "f -> g"
    graphics [
      Line [
        point [ x 35.6 y 144.2 ]
        point [ x 54.3 y 107.8 ]
      ]
    ]
  ]
  edge [ id 2 source 2 target 3 ]
]
