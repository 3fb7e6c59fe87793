# Executes a task with an array of texts, where the task takes an array of objects.
.class public La/Main;
.super Landroid/app/Activity;

.method public constructor <init>()V
    .registers 1
    invoke-direct {p0}, Landroid/app/Activity;-><init>()V
    return-void
.end method

.method public onCreate(Landroid/os/Bundle;)V
    .registers 4
    invoke-static {}, Lvendor/Device;->id()Ljava/lang/String;
    move-result-object v0
    filled-new-array {v0}, [Ljava/lang/String;
    move-result-object v0
    new-instance v1, La/Task;
    invoke-direct {v1}, La/Task;-><init>()V
    invoke-virtual {v1, v0}, La/Task;->execute([Ljava/lang/Object;)Landroid/os/AsyncTask;
    return-void
.end method
