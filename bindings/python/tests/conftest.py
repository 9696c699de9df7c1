"""The tests compare with checks/model_distinct.py and checks/read_images.py, which know the sketches from the pages alone."""
import os
import sys

sys.dont_write_bytecode = True
TOP = os.path.dirname(os.path.dirname(os.path.dirname(os.path.dirname(os.path.abspath(__file__)))))
sys.path.insert(0, os.path.join(TOP, "checks"))
