"""How web/wuzhikar.html is made."""
