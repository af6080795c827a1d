SELECT price FROM trains, hotels
