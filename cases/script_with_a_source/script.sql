
SOURCE u (n INT) FROM 'u.csv';