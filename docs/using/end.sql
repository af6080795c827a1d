SELECT first, second, hotel
FROM two, hotels
WHERE two.city = hotels.city
ORDER BY two.price + hotels.price
