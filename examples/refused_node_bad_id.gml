graph [
  node [ id 0 ]
  node [ id 9223372036854775807 ]
  node [ id 9223372036854775808 ] # One too many for a whole number.
  node [ label "no id" ]
]
