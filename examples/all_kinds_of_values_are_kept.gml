# x
Creator "yFiles" graph [ directed 1 node [ id 7 label "é &amp; b" graphics [ x 1.5E+3 y -INF ] ] node [ id -2 ] edge [ source 7 target -2 w_2 .5 ] ]