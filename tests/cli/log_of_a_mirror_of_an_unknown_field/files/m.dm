dm journal fields
kinds six
checksum sha256
conflicts kept

