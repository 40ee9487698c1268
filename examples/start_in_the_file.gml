# K4 and a triangle that share vertex 3, and a vertex without edges. Each node has its edges in order: from any edge on, those of
# the two blocks mixed at vertex 3, with any white space and leading zeros. Only the first pair of the key counts.
graph [
  node [ id 0 spqrRotation "0 2 1" ]
  node [ id 1 label "one" spqrRotation "	4 000 3
" spqrRotation "later ones do not count" ]
  node [ id 2 spqrRotation "1 5 3" ]
  node [ id 3 spqrRotation "5 6 2 8 4" ]
  node [ id 4 spqrRotation "7 6" ]
  node [ id 5 spqrRotation "8 7" ]
  node [ id 6 spqrRotation "" ]
  edge [ source 0 target 1 ]
  edge [ source 0 target 2 ]
  edge [ source 0 target 3 ]
  edge [ source 1 target 2 ]
  edge [ source 1 target 3 ]
  edge [ source 2 target 3 ]
  edge [ source 3 target 4 ]
  edge [ source 4 target 5 ]
  edge [ source 5 target 3 ]
]
