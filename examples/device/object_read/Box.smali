# Sends the device id when an object of it is read from a stream.
.class public La/Box;
.super Ljava/lang/Object;
.implements Ljava/io/Serializable;

.method private readObject(Ljava/io/ObjectInputStream;)V
    .registers 3
    invoke-static {}, Lvendor/Device;->id()Ljava/lang/String;
    move-result-object v0
    invoke-static {v0}, Lvendor/Net;->post(Ljava/lang/Object;)V
    return-void
.end method
