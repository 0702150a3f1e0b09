import os

os.mkdir('script.sql')
