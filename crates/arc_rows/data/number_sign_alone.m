# 
import a
