# One method makes a box, another one puts the device id into it.
.class public La/Maker;
.super Ljava/lang/Object;

.method public static make()La/Box;
    .registers 1
    new-instance v0, La/Box;
    invoke-direct {v0}, La/Box;-><init>()V
    return-object v0
.end method

.method public static fill(La/Box;)V
    .registers 2
    invoke-static {}, Lvendor/Device;->id()Ljava/lang/String;
    move-result-object v0
    iput-object v0, p0, La/Box;->value:Ljava/lang/String;
    return-void
.end method
