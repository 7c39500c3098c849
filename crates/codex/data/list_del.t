region node = struct list_head { next: ptr node; prev: ptr node; };
fn __list_del(ptr node, ptr node) -> void;
