# Sends the first element of the array that it is executed with.
.class public La/Task;
.super Landroid/os/AsyncTask;

.method public constructor <init>()V
    .registers 1
    invoke-direct {p0}, Landroid/os/AsyncTask;-><init>()V
    return-void
.end method

.method public doInBackground([Ljava/lang/Object;)Ljava/lang/Object;
    .registers 3
    const/4 v0, 0
    aget-object v0, p1, v0
    invoke-static {v0}, Lvendor/Net;->post(Ljava/lang/Object;)V
    return-object v0
.end method
