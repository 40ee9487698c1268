# Node 3 has a number, not a string, under the key: so this file has no start, and no text is read.
graph [
  node [ id 0 spqrRotation "0 2 1" ]
  node [ id 1 spqrRotation "0 3 4" ]
  node [ id 2 spqrRotation "no numbers" ]
  node [ id 3 spqrRotation 5 ]
  edge [ source 0 target 1 ]
  edge [ source 0 target 2 ]
  edge [ source 0 target 3 ]
  edge [ source 1 target 2 ]
  edge [ source 1 target 3 ]
  edge [ source 2 target 3 ]
]
