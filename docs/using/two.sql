SELECT a.train, b.train, b.destination
FROM trains AS a, trains AS b
WHERE a.destination = b.origin AND a.origin = 'Oslo'
ORDER BY a.price + b.price
