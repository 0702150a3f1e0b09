import tables
tables.plain('.', 'k/t')
