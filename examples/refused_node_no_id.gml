graph [
  edge [ source 0 target 0 ] # A loop, but nodes come first.
  node [ id 0 ]
  node [ label "no id" ]
  node [ id 0 ]
]
