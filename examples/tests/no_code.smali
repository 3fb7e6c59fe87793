.class public abstract La/Main;
.super Landroid/app/Activity;
.method public abstract onCreate(Landroid/os/Bundle;)V
.end method
