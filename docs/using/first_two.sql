SELECT t.train, h.hotel
FROM trains AS t, hotels AS h
WHERE t.destination = h.city AND t.origin = 'Oslo'
ORDER BY t.price + h.price
LIMIT 2
