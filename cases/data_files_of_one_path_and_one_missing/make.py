import os

os.remove('t/data/c.avro')
