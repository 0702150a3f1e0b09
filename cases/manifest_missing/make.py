import os

os.remove('t/metadata/m1.avro')
