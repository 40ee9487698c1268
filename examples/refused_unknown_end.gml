graph [
  node [ id 0 ]
  node [ id 1 ]
  edge [ source 0 target 1 ]
  edge [ source 2 source 0 target 2 ] # The first source counts. It is no node's id; so this is not told as a loop.
]
