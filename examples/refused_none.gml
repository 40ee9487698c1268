# A graph that is no list, and one inside another list, are no graph lists.
graph "k4"
plans [ graph [ node [ id 0 ] ] ]
