SELECT train, hotel
FROM trains, hotels
WHERE destination = city
ORDER BY trains.price + hotels.price
LIMIT 4
