s/^((sent|heard) .*) [0-9a-f]+$/\1/
