Bool
