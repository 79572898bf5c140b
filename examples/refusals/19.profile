Int
