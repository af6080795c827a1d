SELECT t.train, t.destination
FROM trains AS t
WHERE t.origin = 'Oslo'
ORDER BY t.price
UNION ALL
SELECT first.train, second.destination
FROM trains AS first, trains AS second
WHERE first.destination = second.origin AND first.origin = 'Oslo'
ORDER BY first.price + second.price
LIMIT 6
