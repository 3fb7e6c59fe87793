# Two calls away the device id goes into the box of a shelf.
.class public La/Work;
.super Ljava/lang/Object;

.method public static first(La/Shelf;)V
    .registers 1
    invoke-static {p0}, La/Work;->second(La/Shelf;)V
    return-void
.end method

.method public static second(La/Shelf;)V
    .registers 2
    invoke-static {}, Lvendor/Device;->id()Ljava/lang/String;
    move-result-object v0
    iget-object p0, p0, La/Shelf;->box:La/Box;
    iput-object v0, p0, La/Box;->value:Ljava/lang/String;
    return-void
.end method
