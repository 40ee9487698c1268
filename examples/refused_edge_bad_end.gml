graph [
  node [ id 0 ]
  node [ id 1 ]
  edge [ source 7 target 1.0 ] # Both are wrong: the end that is no whole number is told.
]
