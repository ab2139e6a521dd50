(list
(item
Aid 1
)item
(item
)item
)list
