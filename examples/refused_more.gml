graph [ node [ id 0 ] ]
# The first graph would do, but there are two.
graph [ ]
