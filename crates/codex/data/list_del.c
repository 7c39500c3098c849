struct list_head { struct list_head *next; struct list_head *prev; };
void __list_del(struct list_head *prev, struct list_head *next) {
  next->prev = prev;
  prev->next = next;
}
