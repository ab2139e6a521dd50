(schema
Axmlns http://purl.oclc.org/dsdl/schematron
(pattern
(rule
Acontext item
(assert
Atest @id
-An item has an id.
)assert
)rule
)pattern
)schema
